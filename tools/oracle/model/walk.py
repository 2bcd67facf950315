"""Change request W-211 in Python: a walk over the instructions of an image. It was written from the request's words and from
the MCS-51 manual's descriptions of the instructions, each with its encoding; it shares nothing with the definition or the
code. Withheld bytes are None here."""
import re

TOO_LONG, TOO_MANY, PAST_END, START, NO_ROOM = 2, 16, 4, 19, 9
RETURN, LIMIT, RESERVED, END, WITHHELD = range(5)
NOTHING, CALL, JUMP = range(3)

# The manual's instructions, in its order: the encoding of the opcode, in which a letter stands for a bit of any value, and the
# form. The operands that take bytes behind the opcode are those in small letters.
MANUAL = """
aaa10001 ACALL addr11          00101rrr ADD A,Rn              00100101 ADD A,direct
0010011i ADD A,@Ri             00100100 ADD A,#data           00111rrr ADDC A,Rn
00110101 ADDC A,direct         0011011i ADDC A,@Ri            00110100 ADDC A,#data
aaa00001 AJMP addr11           01011rrr ANL A,Rn              01010101 ANL A,direct
0101011i ANL A,@Ri             01010100 ANL A,#data           01010010 ANL direct,A
01010011 ANL direct,#data      10000010 ANL C,bit             10110000 ANL C,/bit
10110101 CJNE A,direct,rel     10110100 CJNE A,#data,rel      10111rrr CJNE Rn,#data,rel
1011011i CJNE @Ri,#data,rel    11100100 CLR A                 11000011 CLR C
11000010 CLR bit               11110100 CPL A                 10110011 CPL C
10110010 CPL bit               11010100 DA A                  00010100 DEC A
00011rrr DEC Rn                00010101 DEC direct            0001011i DEC @Ri
10000100 DIV AB                11011rrr DJNZ Rn,rel           11010101 DJNZ direct,rel
00000100 INC A                 00001rrr INC Rn                00000101 INC direct
0000011i INC @Ri               10100011 INC DPTR              00100000 JB bit,rel
00010000 JBC bit,rel           01000000 JC rel                01110011 JMP @A+DPTR
00110000 JNB bit,rel           01010000 JNC rel               01110000 JNZ rel
01100000 JZ rel                00010010 LCALL addr16          00000010 LJMP addr16
11101rrr MOV A,Rn              11100101 MOV A,direct          1110011i MOV A,@Ri
01110100 MOV A,#data           11111rrr MOV Rn,A              10101rrr MOV Rn,direct
01111rrr MOV Rn,#data          11110101 MOV direct,A          10001rrr MOV direct,Rn
10000101 MOV direct,direct     1000011i MOV direct,@Ri        01110101 MOV direct,#data
1111011i MOV @Ri,A             1010011i MOV @Ri,direct        0111011i MOV @Ri,#data
10100010 MOV C,bit             10010010 MOV bit,C             10010000 MOV DPTR,#data16
10010011 MOVC A,@A+DPTR        10000011 MOVC A,@A+PC          1110001i MOVX A,@Ri
11100000 MOVX A,@DPTR          1111001i MOVX @Ri,A            11110000 MOVX @DPTR,A
10100100 MUL AB                00000000 NOP                   01001rrr ORL A,Rn
01000101 ORL A,direct          0100011i ORL A,@Ri             01000100 ORL A,#data
01000010 ORL direct,A          01000011 ORL direct,#data      01110010 ORL C,bit
10100000 ORL C,/bit            11010000 POP direct            11000000 PUSH direct
00100010 RET                   00110010 RETI                  00100011 RL A
00110011 RLC A                 00000011 RR A                  00010011 RRC A
11010011 SETB C                11010010 SETB bit              10000000 SJMP rel
10011rrr SUBB A,Rn             10010101 SUBB A,direct         1001011i SUBB A,@Ri
10010100 SUBB A,#data          11000100 SWAP A                11001rrr XCH A,Rn
11000101 XCH A,direct          1100011i XCH A,@Ri             1101011i XCHD A,@Ri
01101rrr XRL A,Rn              01100101 XRL A,direct          0110011i XRL A,@Ri
01100100 XRL A,#data           01100010 XRL direct,A          01100011 XRL direct,#data
"""
SIZES = {"addr11": 1, "addr16": 2, "#data16": 2, "#data": 1, "direct": 1, "bit": 1, "/bit": 1, "rel": 1}


def instructions():
    """By opcode: the name, the operands, and the form with the register's number."""
    found = {}
    for code, name, operands in re.findall(r"([01ari]{8}) (\w+)(?: ([A-Za-z@#/][^ \n]*))?", MANUAL):
        letters = [i for i in range(8) if code[i] not in "01"]
        for value in range(1 << len(letters)):
            bits = list(code)
            for n, i in enumerate(letters):
                bits[i] = str(value >> (len(letters) - 1 - n) & 1)
            opcode = int("".join(bits), 2)
            assert opcode not in found, (code, name)
            found[opcode] = name, operands.split(","), f"{name} {re.sub('(?<=R)[ni]', str(value), operands)}".strip()
    return found


INSTRUCTIONS = instructions()
assert sorted(set(range(256)) - set(INSTRUCTIONS)) == [0xA5]


def length(opcode):
    return 1 + sum(SIZES.get(o, 0) for o in INSTRUCTIONS[opcode][1])


def row(image, at):
    """The row of the instruction at a place, all of whose bytes are seen: address, what, target."""
    name, operands, _ = INSTRUCTIONS[image[at]]
    after = at + length(image[at])
    what = CALL if name in ("ACALL", "LCALL") else JUMP
    if "addr16" in operands:
        return at, what, image[at + 1] << 8 | image[at + 2]
    if "addr11" in operands:
        return at, what, (after & 0xF800 | (image[at] & 0xE0) << 3 | image[at + 1]) & 0xFFFF
    if "rel" in operands:
        byte = image[after - 1]
        return at, what, (after + (byte - 256 if byte >= 128 else byte)) & 0xFFFF
    return at, NOTHING, 0


def walk(image, start):
    """The rows from a start below the end on, and why no more are shown."""
    rows, at = [], start
    while len(rows) < 256:
        if at >= len(image):
            return rows, END
        if image[at] is None:
            return rows, WITHHELD
        if image[at] == 0xA5:
            return rows, RESERVED
        after = at + length(image[at])
        if after > len(image):
            return rows, END
        if None in image[at:after]:
            return rows, WITHHELD
        rows.append(row(image, at))
        if INSTRUCTIONS[image[at]][0] in ("RET", "RETI"):
            return rows, RETURN
        at = after
    return rows, LIMIT


def outcome(image, stretches, start, lent):
    """The number, how many steps, why, and the lent numbers (all 0xA5A5 before) as they are left."""
    before = [0xA5A5] * lent
    if len(image) > 0x10000:
        return TOO_LONG, 0, 0, before
    if len(stretches) > 16:
        return TOO_MANY, 0, 0, before
    if any(first + size > len(image) for first, size in stretches):
        return PAST_END, 0, 0, before
    if start >= len(image):
        return START, 0, 0, before
    seen = list(image)
    for first, size in stretches:
        seen[first:first + size] = [None] * size
    rows, why = walk(seen, start)
    if lent < 3 * len(rows):
        return NO_ROOM, 0, 0, [0] * lent
    numbers = [n for r in rows for n in r]
    return 0, len(rows), why, numbers + [0] * (lent - len(numbers))
