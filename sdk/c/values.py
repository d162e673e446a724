"""Values of a procedure's arguments and of rows, as people write them: FIELD=VALUE."""
import re


def packed(fields, words):
    """Returns the bytes of fields that are given as words FIELD=VALUE, all of them, once each, and no others."""
    pairs, names = [word.partition("=")[::2] for word in words], [it.name for it in fields]
    if sorted(name for name, _ in pairs) != sorted(names):
        unknown = "".join(f"no field {name}: " for name, _ in pairs if name not in names)
        raise ValueError(f"{unknown}takes " + " ".join(f"{it}=" for it in names))
    given = dict(pairs)
    block = bytearray(max((it.at + it.size for it in fields), default=0))
    for it in fields:
        raw = raw_value(it, given[it.name])
        block[it.at : it.at + len(raw)] = raw
    return bytes(block)


def raw_value(field, word):
    """Returns a field's bytes; text and bytes that are shorter than it are filled up with zeros."""
    if field.form == "text":
        raw = word.encode()
    elif field.form == "bytes":
        if len(word) % 2 or any(it not in "0123456789abcdefABCDEF" for it in word):
            raise ValueError(f"{field.name}={word}: an even number of hex digits")
        raw = bytes.fromhex(word)
    else:
        return raw_number(field, word)
    if len(raw) > field.size:
        raise ValueError(f"{field.name} has {field.size} bytes, and {word} takes {len(raw)}")
    return raw


def raw_number(field, word):
    if not re.fullmatch("-?(0|[1-9][0-9]*|0x[0-9a-fA-F]+)", word):
        raise ValueError(f"{field.name}={word} is no number: decimal without leading zeros, or 0x..")
    number = int(word, 0)
    try:
        return number.to_bytes(field.size, "little", signed=field.form == "signed")
    except OverflowError:
        raise ValueError(f"{field.name}={word} doesn't fit its {field.size} bytes") from None


def shown(field, block):
    """Returns a field of a block of bytes as FIELD=VALUE."""
    raw = block[field.at : field.at + field.size]
    if field.form == "text":
        said = raw.rstrip(b"\0").decode(errors="replace")
    elif field.form == "bytes":
        said = raw.hex()
    else:
        said = str(int.from_bytes(raw, "little", signed=field.form == "signed"))
    return f"{field.name}={said}"


def hex_of(block):
    """Returns bytes as a script has them."""
    return block.hex() or "-"
