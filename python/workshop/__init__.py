"""What the repository needs: builds, checks, documents, drawings, measurements and WebAssembly. It may import dorydate, which never imports it."""
