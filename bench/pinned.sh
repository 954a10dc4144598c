# shellcheck shell=sh
# For scripts that time threads, which read this file by `.`.

# pinned COUNT COMMAND ..: runs the command on this many of the processors that this shell may use, the last ones, so that it
# isn't moved.
pinned() {
    _processors=$(taskset -c -p $$ | awk -v count="$1" '{
        parts = split($NF, part, ",")
        for (k = 1; k <= parts; k++) {
            ends = split(part[k], range, "-")
            for (processor = range[1]; processor <= range[ends]; processor++) all[++have] = processor
        }
        for (k = (have > count ? have - count + 1 : 1); k <= have; k++) list = list (list == "" ? "" : ",") all[k]
        print list
    }')
    shift
    taskset -c "$_processors" "$@"
}
