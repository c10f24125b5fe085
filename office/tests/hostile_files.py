"""Files that somebody hostile sends: each kind by its name, made by a few lines, and small."""
import gzip
import io
import pathlib
import sqlite3
import struct
import tempfile
import zipfile
import zlib
from collections.abc import Callable

import hostile

# what a file would have the application read, ask or run, which the test looks at
Baits = dict[str, str]
Kinds = dict[str, bytes]


def zipped(parts: dict[str, bytes]) -> bytes:
    """A zip of parts, which may have any names."""
    made = io.BytesIO()
    with zipfile.ZipFile(made, "w", zipfile.ZIP_DEFLATED) as file:
        for name, data in parts.items():
            file.writestr(zipfile.ZipInfo(name), data, zipfile.ZIP_DEFLATED)
    return made.getvalue()


def link(name: str, target: str) -> bytes:
    """A zip with a symbolic link."""
    made, info = io.BytesIO(), zipfile.ZipInfo(name)
    info.external_attr, info.create_system = 0o120777 << 16, 3
    with zipfile.ZipFile(made, "w") as file:
        file.writestr(info, target)
    return made.getvalue()


def in_room(made: Callable[[pathlib.Path], object]) -> bytes:
    """The bytes of a file that is made at a path."""
    with tempfile.TemporaryDirectory(prefix="hostile-") as room:
        path = pathlib.Path(room, "made")
        made(path)
        return path.read_bytes()


def part_of(document: str) -> bytes:
    """An Excel file whose sheet is this document."""
    book = in_room(lambda it: hostile.workbook(it, hostile.GOOD))
    with zipfile.ZipFile(io.BytesIO(book)) as file:
        parts = {it: file.read(it) for it in file.namelist()}
    return zipped({**parts, "xl/worksheets/sheet1.xml": document.encode()})


def with_entities(entities: str, use: str) -> bytes:
    """An Excel file whose sheet declares entities and uses one."""
    cell = hostile.row_of(3, ["1", use])
    return part_of(f"<!DOCTYPE worksheet [{entities}]><worksheet {hostile.MAIN}><sheetData>"
                   f"{hostile.GOOD}{cell}</sheetData></worksheet>")


def bombs() -> Kinds:
    """Archives and Excel files that are far larger than they seem."""
    blank = zlib.compressobj()
    million = blank.compress(b"0" * 60_000_000) + blank.flush()
    inner = zipped({f"{at}.zip": zipped({"x.csv": b"a," * 4_000_000}) for at in range(4)})
    laughs = '<!ENTITY a0 "ha">' + "".join(
        f'<!ENTITY a{it} "{f"&a{it - 1};" * 10}">' for it in range(1, 10))
    rows = hostile.many_rows(150_000, "><v>1</v></c>")
    return {
        "nested.zip": zipped({"a.zip": inner}),
        "ratio.zip": zipped({"a.csv": b"1" * 40_000_000}),
        "entries.zip": zipped({f"{it}.csv": b"" for it in range(5_000)}),
        "stream.gz": gzip.compress(b"a" * 50_000_000), "stream.z": million,
        "rows.xlsx": in_room(lambda it: hostile.workbook(it, hostile.GOOD + rows)),
        "laughs.xlsx": with_entities(laughs, "&a9;"),
        "corner.xlsx": in_room(lambda it: hostile.workbook(
            it, hostile.GOOD + hostile.empty_cell("XFD1048576", 1048576))),
        "blanks.xlsx": in_room(lambda it: hostile.workbook(it, hostile.GOOD, " " * 40_000_000)),
    }


def outward(baits: Baits) -> Kinds:
    """What names another file, another host, or a command."""
    away = (f'<externalLinks xmlns="x"><externalLink Target="{baits["url"]}"/></externalLinks>')
    return {
        "entity.xlsx": with_entities(f'<!ENTITY x SYSTEM "{baits["file"]}">', "&x;"),
        "parameter.xlsx": with_entities(f'<!ENTITY % x SYSTEM "{baits["url"]}"> %x;', "1"),
        "links.xlsx": in_room(lambda it: hostile.workbook(
            it, hostile.GOOD, away, more={"xl/externalLinks/externalLink1.xml": away})),
        "formula.csv": f"child,name\n1,=cmd|'/c {baits['run']}'!A1\n".encode(),
        "link.zip": link("a.csv", baits["path"]),
        "climb.zip": zipped({"../../../../evil.csv": b"1,2\n", "/evil.csv": b"1,2\n"}),
        "page.html": f'<script src="{baits["url"]}">alert(1)</script>'.encode(),
        "picture.svg": (
            f'<!DOCTYPE svg [<!ENTITY x SYSTEM "{baits["file"]}">]><svg xmlns='
            f'"http://www.w3.org/2000/svg" onload="alert(1)"><image href="{baits["url"]}"/><image'
            f' href="{baits["file"]}"/><text>&x;</text><script>alert(1)</script></svg>').encode(),
    }


def wrong() -> Kinds:
    """Files of other kinds, cut ones, and texts that are no sheet."""
    book = in_room(lambda it: hostile.workbook(it, hostile.GOOD))
    return {
        "letter.xlsx": b"%PDF-1.7\n1 0 obj<</OpenAction<</S/Launch/F(x)>>>>endobj\n%%EOF",
        "program.csv": b"\x7fELF\x02\x01\x01" + bytes(range(256)) * 40,
        "cut.xlsx": book[:len(book) // 2], "cut.zip": book[:60],
        "turned.xlsx": bytes(it ^ 0x20 if at % 97 == 5 else it for at, it in enumerate(book)),
        "zeros.csv": b"\0" * 100_000, "line.csv": b"a" * 3_000_000,
        "cells.csv": hostile.HEADER.encode() + b'1,"' + b"x" * 100_000 + b'"\n',
        "quote.csv": hostile.HEADER.encode() + b'1,"Ann',
        "bytes.csv": b"child,name\n1,\xff\xfe\xc3\n",
        "surrogate.csv": b"child,name\n1,\xed\xa0\x80\n", "empty.csv": b"", "blank.csv": b" \n\n",
        "mark.csv": b"\xff\xfec\0h\0i\0l\0d\0", "commas.csv": b"," * 2_000_000 + b"\n",
    }


def registers() -> Kinds:
    """Databases that are no register, or do more than hold one."""
    def made(*statements: str) -> bytes:
        def written(path: pathlib.Path) -> None:
            with sqlite3.connect(path) as db:
                for it in statements:
                    db.execute(it)
            db.close()
        return in_room(written)

    whole = made("CREATE TABLE draw (number)", "INSERT INTO draw VALUES (1)")
    endless = ("CREATE VIEW draw AS WITH RECURSIVE r(n) AS (SELECT 1 UNION ALL SELECT n+1 FROM r)"
               " SELECT n FROM r")
    return {
        "none.db": whole, "view.db": made(endless),
        "trigger.db": made("CREATE TABLE school (a)", "CREATE TRIGGER t AFTER INSERT ON school"
                           " BEGIN DELETE FROM school; END"),
        "pages.db": made("PRAGMA page_size=65536", "CREATE TABLE child (a)",
                         "INSERT INTO child VALUES (zeroblob(8000000))"),
        "corrupt.db": whole[:100] + bytes(it ^ 0xA5 for it in whole[100:]),
        "head.db": whole[:100], "count.db": whole[:28] + struct.pack(">I", 2**32 - 1) + whole[32:],
    }


def changed_registers(register: bytes) -> Kinds:
    """A right register to which something was added, or of which a page was changed."""
    def changed(statement: str) -> bytes:
        def written(path: pathlib.Path) -> None:
            path.write_bytes(register)
            with sqlite3.connect(path) as db:
                db.execute("PRAGMA writable_schema=ON")
                db.execute(statement)
            db.close()
        return in_room(written)

    page = register[:4096] + bytes(4096) + register[8192:]
    return {
        "added-trigger.db": changed("CREATE TRIGGER t AFTER INSERT ON child BEGIN SELECT 1; END"),
        "added-view.db": changed("CREATE VIEW v AS SELECT load_extension('x')"),
        "renamed.db": changed("ALTER TABLE child RENAME TO children"),
        "zeroed.db": page, "half.db": register[:len(register) // 2],
    }


def png(width: int, height: int, data: bytes) -> bytes:
    """A picture that says it has so many points."""
    def chunk(kind: bytes, text: bytes) -> bytes:
        return struct.pack(">I", len(text)) + kind + text + struct.pack(
            ">I", zlib.crc32(kind + text))
    head = struct.pack(">IIBBBBB", width, height, 8, 0, 0, 0, 0)
    return b"\x89PNG\r\n\x1a\n" + chunk(b"IHDR", head) + chunk(b"IDAT", data) + chunk(b"IEND", b"")


def pictures(baits: Baits) -> Kinds:
    """Pictures that are far too large, broken, or of more than a picture."""
    many = "".join(
        f'<g id="a{it}">{f"""<use href="#a{it - 1}"/>""" * 10}</g>' for it in range(1, 9))
    return {
        "bomb.png": png(30_000, 30_000, zlib.compress(bytes(30_001 * 30_000 // 100), 9)),
        "broken.png": png(10, 10, b"no stream"), "text.png": b"this is no picture",
        "cut.gif": b"GIF89a\xff\xff\xff\xff", "cut.jpg": b"\xff\xd8\xff\xe0\0\x10JFIF",
        "uses.svg": f'<svg xmlns="http://www.w3.org/2000/svg"><g id="a0"/>{many}'
                    '<use href="#a8"/></svg>'.encode(),
        "script.svg": outward(baits)["picture.svg"],
    }


NAMES = (
    "", ".", "..", "../../../../etc/cron.d/evil", "..\\..\\evil.xlsx", "/etc/passwd", "a\0b.csv",
    "a\nb\r\nSet-Cookie: x=1.csv", "\u202efdp.exe", "x" * 300 + ".csv", "con.csv", "-rf.csv",
    "<img id=hostile src=x onerror=alert(1)>.csv", "=1+1.csv", "{{91*91}}.csv",
    "'; DROP TABLE x;--", "🜁.csv", "a.csv;filename=b.html", '"quoted".html',
)
