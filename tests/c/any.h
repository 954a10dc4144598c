/* A handle of any kind, for tests that also try calls on objects of another kind. */
#include <fintaqush.h>

union any {
    struct fq_handle handle;
    struct fq_ring ring;
    struct fq_tx tx;
    struct fq_caller caller;
    struct fq_control control;
    struct fq_list list;
    struct fq_driver driver;
};
