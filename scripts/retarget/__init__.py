"""Builds what ./prove has proved for processors with 32-bit addresses.

The kit compiles a proved crate for x86-64 from one LLVM module. This package keeps that module (``keep_module``), checks each of its
lines against a closed list of forms (``forms``), rewrites what depends on the size of an address (``rewrite``, ``module``), and
compiles the result (``compiler``). ``targets`` has one file for each family of processors. docs/boards.md says what is proved, what is
only tested, and what is trusted.
"""
