"""The bytes of files as terms of Coq: lines of fields, each field and each line once."""

EIGHT = 8


def string_term(field: str) -> str:
    """A string literal of Coq."""
    return '"' + field.replace('"', '""') + '"'


def number_term(number: str) -> str:
    """A literal of Z."""
    return f"({number})" if number.startswith("-") else number


class Terms:
    """The definitions of a file of Coq, in the order of their making."""

    def __init__(self) -> None:
        self.definitions = [
            "Definition eight (a b c d e f g h : string) (l : list string) := a :: b :: c :: d :: e :: f :: g :: h :: "
            "l."
        ]
        self.fields: dict[str, str] = {}
        self.lines: dict[tuple[str, ...], str] = {}

    def field(self, field: str) -> str:
        """The name of a field, which contains the field if that has only letters and digits."""
        if field not in self.fields:
            name = f"f_{field}" if field.isalnum() and field.isascii() else f"g_{len(self.fields)}"
            self.fields[field] = name
            self.definitions.append(f"Definition {name} := {string_term(field)}.")
        return self.fields[field]

    def line(self, fields: list[str]) -> str:
        """The name of a line of these fields."""
        key = tuple(fields)
        if key not in self.lines:
            names = [self.field(field) for field in fields]
            whole = len(names) // EIGHT * EIGHT
            rows = ["(eight " + " ".join(names[at : at + EIGHT]) for at in range(0, whole, EIGHT)]
            term = "\n ".join([*rows, "[" + "; ".join(names[whole:]) + "]"]) + ")" * len(rows)
            self.lines[key] = f"line_{len(self.lines)}"
            self.definitions.append(f"Definition {self.lines[key]} : list string := {term}.")
        return self.lines[key]

    def text(self, name: str, file: bytes, separator: str) -> None:
        """Defines the lines of fields of a file. A last line without its line feed gets one as a part of a field: no
        text has that."""
        *lines, unended = file.decode().split("\n")
        lines += [unended + "\n"] if unended else []
        names = [self.line(line.split(separator)) for line in lines]
        self.definitions.append(f"Definition {name} : text := [{'; '.join(names)}].")

    def __str__(self) -> str:
        return "\n".join(self.definitions) + "\n"
