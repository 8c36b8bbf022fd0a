"""The parts of the way of a request in which instructions go, by the functions that take them."""
# The fronts of the symbols of a part's functions. Of several that fit the longest counts.
PARTS = {
    "reading": ("session_records", "cmd_packets", "table_files", "read"),
    "step": ("tbl_core::playing", "tbl_core::service", "tbl_core::log", "tbl_stream", "tbl_top"),
    "dispatch": ("tbl_core", "request_effects"),
    "request": ("desk", "load_requests", "update_requests", "dump_requests", "address_requests", "store_requests", "tbl_registry", "sharing",
                "access_desc", "buffer_pairs", "validation", "file_drawer"),
    "store": ("cds_store", "cds_layout", "cds_pool", "check_word", "tbl_adapters", "pread", "pread64", "pwrite", "pwrite64"),
    "packets": ("reply_packets", "tlm_packets", "cfe_headers"),
    "writing": ("tbl_stream::writing", "transcript", "write"),
    "memory": ("malloc", "_int_malloc", "free", "_int_free", "realloc", "_int_realloc", "unlink_chunk", "alloc_perturb",
               "rattle_alloc", "rattle_dealloc", "rattle_realloc"),
    "copies": ("__memcpy", "__memmove", "__memset", "__memcmp"),
}
REST = "other"


def is_front(front, symbol) -> bool:
    """Whether a symbol is this front, or goes on after it with a further name."""
    return symbol.startswith(front) and symbol[len(front):len(front) + 1] in ("", ":", ".", "_")


def part_of(symbol) -> str:
    fits = [(len(front), part) for part, fronts in PARTS.items() for front in fronts if is_front(front, symbol)]
    return max(fits)[1] if fits else REST


def by_parts(own) -> dict[str, int]:
    """How many instructions each part takes, by those that each function takes itself."""
    found = dict.fromkeys((*PARTS, REST), 0)
    for symbol, count in own.items():
        found[part_of(symbol)] += count
    return found
