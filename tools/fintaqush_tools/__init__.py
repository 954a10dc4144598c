"""The command `fintaqush`, the launcher `./replay`, and the build: docs/WORKING.md says where each thing is."""
