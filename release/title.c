/*
 * pua VERSION as one C file, of commit
 * COMMIT
 *
 * A program wrote this file, and nobody is to change it by hand: release/ir2c of the repository,
 * out of the LLVM module that Rattle's compiler made of the whole program, libraries and all, once
 * all of it was proved (KIT). The names in the comments are those of
 * the program's functions. The first word of each is its crate, whose licence is in licences/.
 *
 * It is to be compiled by the flags of Makefile, and Makefile says why.
 *
 * What is trusted: this file is a translation, by a program that is not proved, of what was proved.
 * What is proved holds of it if the translation, runtime.c, your C compiler and your C library are
 * right. (And the prover, and the compiler up to that module, which executables of the toolchain
 * rest on too.) Run `make check`.
 */

