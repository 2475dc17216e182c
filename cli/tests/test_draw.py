"""lanyardrove draw."""
import os
import struct

from support import ONE_CYCLE, R, S, TOP, example, files, memory_of_i, png_pixels, read, rgb_of, run, same, test, words, write


@test
def draw_writes_memory():
    same(run("draw", example("i.rdp"), "--memory", "64", "-o", "i.bin"), (
        0, "0 5\naccepted: 5 words\ni.bin: 64 bytes of memory from address 0x0\n", ""))
    same(read("i.bin"), memory_of_i())
    same(run("draw", example("i.rdp"), "--memory", "38", "-o", "i.bin")[0], 0)
    same(read("i.bin"), memory_of_i()[:38])
    same(run("draw", example("i.rdp"), "--memory", "64", "--image", "16,8,2,16", "-o", "i.bin")[0], 0)
    same(read("i.bin"), memory_of_i()[16:48])
    same(run("draw", example("i.rdp"), "--memory", "20", "--start", "0x12", "-o", "i.bin")[0], 0)
    same(read("i.bin"), memory_of_i()[18:38])
    same(run("draw", example("i.rdp"), "--memory", "30", "--start", "16", "--image", "18,1,10,16", "-o", "i.bin")[0], 0)
    same(read("i.bin"), memory_of_i()[18:38])
    same(run("draw", example("i.rdp"), "--memory", "30", "--start", "16", "--image", "18,1,10,16", "-o", "i.ppm")[0], 0)
    same(read("i.ppm"), b"P6\n1 10\n255\n" + b"".join(rgb_of(v) for v in struct.unpack(">10H", memory_of_i()[18:38])))
    same(run("draw", example("i.rdp"), "--memory", "1K", "-o", "i.bin")[0], 0)
    same(len(read("i.bin")), 1024)
    same(run("draw", example("a.rdp"), "--memory", "0", "-o", "a.bin")[0], 0)
    same(read("a.bin"), b"")


@test
def draw_writes_nothing_at_a_refusal():
    write("odd.rdp", words(S[0], 0x3F10000700000001, S[2], R))
    write("cycle.rdp", words(ONE_CYCLE, *S[1:], R))
    for arguments, answer in (([example("i.rdp"), "--memory", "37"], "12 4"), ([example("g.rdp"), "--memory", "64"], "9 4"),
                              (["odd.rdp", "--memory", "64"], "11 3"), (["cycle.rdp", "--memory", "64"], "10 3"),
                              ([example("i.rdp"), "--memory", "64", "--start", "19"], "12 4")):
        for output in ("out.bin", "out.png"):
            status, out, err = run("draw", *arguments, "-o", output)
            same((status, out.split("\n")[0], err), (1, answer, ""), arguments)
    same(run("draw", example("g.rdp"), "--memory", "64", "-o", "out.bin")[1].split("\n")[1],
         "word 4: Set Fill Color requires Sync Pipe, for the Fill Rectangle at word 3")
    same(run("draw", "odd.rdp", "--memory", "64", "-o", "out.bin")[1].split("\n")[1],
         "word 3: Fill Rectangle draws on a colour image whose address is no multiple of 64")
    same(run("draw", example("i.rdp"), "--memory", "20", "--start", "19", "-o", "out.bin")[1].split("\n")[1:], [
        "word 4: Fill Rectangle reads or writes outside memory", "--memory and --start give 20 bytes of memory from address 0x13", ""])
    same(files(), ["cycle.rdp", "odd.rdp"])


@test
def draw_writes_the_picture():
    memory = memory_of_i()
    expected = b"".join(rgb_of(v) for v in struct.unpack(">32H", memory))
    same(run("draw", example("i.rdp"), "--memory", "64", "-o", "i.ppm")[0], 0)
    same(read("i.ppm"), b"P6\n8 4\n255\n" + expected)
    same(run("draw", example("i.rdp"), "--memory", "64", "-o", "i.png")[0], 0)
    same(png_pixels(read("i.png")), (8, 4, expected))
    same(run("draw", example("i.rdp"), "--memory", "64", "--image", "0,4,4,32", "-o", "i.ppm")[0], 0)
    same(read("i.ppm"), b"P6\n4 4\n255\n" + b"".join(memory[4 * i:4 * i + 3] for i in range(16)))
    same(run("draw", example("i.rdp"), "--memory", "64", "--image", "0,16,4,8", "-o", "i.ppm")[0], 0)
    same(read("i.ppm"), b"P6\n16 4\n255\n" + b"".join(bytes([b] * 3) for b in memory))


@test
def draw_shows_every_value_and_pictures_beyond_the_sides_of_a_view():
    memory = write("all.bin", struct.pack(">65536H", *range(65536)))
    colours = {8: lambda i: bytes([read_all[i]] * 3), 16: lambda i: rgb_of(i), 32: lambda i: read_all[4 * i:4 * i + 3]}
    read_all = read(memory)
    for width, height, bits in ((256, 256, 16), (512, 256, 8), (128, 256, 32), (1024, 32, 16), (1025, 31, 16), (4096, 16, 16), (31, 1025, 16), (9, 4096, 8),
                                (4096, 32, 8), (2049, 15, 32)):
        same(run("draw", example("a.rdp"), "--memory", memory, "--image", f"0,{width},{height},{bits}", "-o", "out.ppm")[0], 0)
        head = b"P6\n%d %d\n255\n" % (width, height)
        same(read("out.ppm") == head + b"".join(colours[bits](i) for i in range(width * height)), True, (width, height, bits))


@test
def draw_of_a_picture_that_is_not_there():
    for arguments, reason in (([example("i.rdp"), "--memory", "40", "-o", "x.png"], "8 by 4 pixels of 16 bits at address 0x0, is not inside memory"),
                              ([example("i.rdp"), "--memory", "64", "--image", "64,1,1,8", "-o", "x.png"], "not inside memory"),
                              ([example("i.rdp"), "--memory", "64", "--image", "0xFFFFFFFFFFFFFFFF,1,1,8", "-o", "x.bin"], "not inside memory"),
                              ([example("a.rdp"), "--memory", "64", "-o", "x.png"], "draws no picture")):
        status, out, err = run("draw", *arguments)
        same((status, out), (2, ""), arguments)
        assert reason in err, err
    same(files(), [])


@test
def draw_makes_the_picture_of_the_readme():
    same(run("draw", example("sunset.rdp"), "--memory", "38400", "-o", "picture.png"), (
        0, "0 244\naccepted: 244 words\npicture.png: 160 by 120 pixels of 16 bits at address 0x0\n", ""))
    found = png_pixels(read("picture.png"))
    same(found[:2], (160, 120))
    same(found, png_pixels(read(os.path.join(TOP, "docs", "picture.png"))))
    assert len({found[2][i:i + 3] for i in range(0, len(found[2]), 3)}) > 20
