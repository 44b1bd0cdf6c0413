"""What the tools share: they read the files of cqe as docs/FORMATS.md says, and explain its codes."""
