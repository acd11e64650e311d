// A published file names this module; nothing that is built needs what is in it.
