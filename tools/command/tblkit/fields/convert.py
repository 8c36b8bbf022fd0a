"""An image in the layout of another object, field by field."""
from . import kinds, values
from .definitions import Definition
from .layout import BYTES, TEXT, Field
from .wrong import Wrong


def convert(image: bytes, source: Definition, target: Definition) -> bytes:
    """The image of `source`'s layout in that of `target`, which defines the same fields. Padding is zero."""
    _same_fields(source, target)
    made = bytearray(target.layout.size)
    for field in source.layout.fields:
        into = target.layout.by_name[field.name]
        into.with_raw(made, _converted(field, into, field.raw(image)))
    return bytes(made)


def _same_fields(source: Definition, target: Definition) -> None:
    if source.table != target.table:
        raise Wrong(f"{target.path}: it defines the table {target.table}, and {source.path} {source.table}")
    for one, other in ((source, target), (target, source)):
        missing = next((name for name in one.layout.by_name if name not in other.layout.by_name), None)
        if missing is not None:
            raise Wrong(f"{missing}: {one.path} has this field, and {other.path} hasn't")


def _converted(field: Field, into: Field, raw: int) -> int:
    """The bits of a field in the other layout: the same value, or the same bytes."""
    crosses = field.order != into.order
    if crosses and field.is_bit_field:
        raise Wrong(f"{field.name}: a bit field isn't carried from one byte order to the other")
    if crosses and field.is_union:
        raise Wrong(f"{field.name}: a union isn't carried from one byte order to the other unless --member chooses one of its members")
    if field.kind != into.kind or field.kind in (TEXT, BYTES) and field.bits != into.bits:
        raise Wrong(f"{field.name}: it is {field.type_name} of {field.bits // 8} bytes in one object, and {into.type_name} of "
                    f"{into.bits // 8} in the other")
    if field.kind in (TEXT, BYTES):
        return _carried(field, into, raw, crosses)
    if field.kind == kinds.FLOAT:
        return raw if field.bits == into.bits else values.raw_of(into, values.text_of(field, raw))
    # A truth value that is neither goes on as it is, for the function to judge.
    if field.bits == into.bits:
        return raw
    return values.raw_of_number(into, values.number_of(field, raw))


def _carried(field: Field, into: Field, raw: int, crosses: bool) -> int:
    if crosses and field.kind == BYTES and field.bits > 8:
        raise Wrong(f"{field.name}: {field.type_name} isn't carried from one byte order to the other")
    return int.from_bytes(raw.to_bytes(field.bits // 8, field.order), into.order)
