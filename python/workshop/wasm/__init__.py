"""WebAssembly of the program: the module that LLVM made it of, its surroundings, and the page that it is in."""
