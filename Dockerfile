# How a studio's image takes Lanyardrove in. No Docker is at hand where the library is made: `make dockerfile` runs these steps in a root that
# debootstrap makes.
#
# The archive is built outside, because the Rattle toolchain that proves and compiles it is no Debian package:
#     make && make install DESTDIR=build/installed PREFIX=/usr
#     docker build -t studio .
# The tool is linked with the libpng and the jansson of the machine that built it; build on the same Debian release as below.
FROM debian:bookworm-slim
RUN apt-get update \
    && apt-get install -y --no-install-recommends gcc libc6-dev make pkg-config libpng16-16 libjansson4 \
    && rm -rf /var/lib/apt/lists/*
COPY build/installed/usr /usr

# Each check is one line of a studio's build: it fails where a list is refused (1) or cannot be read (2).
#     lanyardrove check build/*.rdp
# A program of its own links the archive:
#     gcc game.c -o game $(pkg-config --static --cflags --libs lanyardrove)
COPY examples/i.rdp /tmp/i.rdp
RUN lanyardrove check /tmp/i.rdp && pkg-config --exists lanyardrove
