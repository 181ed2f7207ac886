/* folder.c takes only the number of one system call from this header, and has it itself. */
