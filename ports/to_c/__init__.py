"""The translation of the library's LLVM module to C; ports/to_c.py is its command."""
