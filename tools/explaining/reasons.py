"""The first thing that may have brought a refusal about, by its code."""
from explaining import data_reasons, division_reasons, name_reasons, section_reasons, source_reasons

REASONS = {
    101: source_reasons.bad_character,
    102: source_reasons.unclosed_literal,
    103: source_reasons.word_too_long,
    104: source_reasons.number_too_long,
    111: data_reasons.bad_picture,
    121: data_reasons.bad_data_entry,
    122: data_reasons.name_twice,
    123: name_reasons.unknown_item,
    124: data_reasons.storage_too_large,
    131: source_reasons.no_such_form,
    132: source_reasons.no_if,
    133: source_reasons.paragraph_twice,
    141: data_reasons.field_outside,
    142: data_reasons.fields_overlap,
    143: data_reasons.bad_clause,
    151: division_reasons.bad_division,
    152: source_reasons.not_for_servers,
    161: name_reasons.unknown_paragraph,
    162: name_reasons.unknown_name,
    163: name_reasons.wrong_length,
    164: name_reasons.wrong_kind,
    171: section_reasons.bad_log_line,
    172: section_reasons.bad_failure_line,
    181: section_reasons.bad_command,
    182: section_reasons.added_twice,
    183: section_reasons.unknown_object,
    184: section_reasons.out_of_range,
    185: section_reasons.bad_start,
    191: section_reasons.bad_section,
    192: section_reasons.end_missing,
    193: section_reasons.section_twice,
    194: section_reasons.bad_record,
    195: section_reasons.bad_entry,
    196: section_reasons.too_many,
}


def reason_of(deck, line, code):
    """The token that a refusal is about, and what is to be told of it; none and nothing where that cannot be told."""
    token, *told = next(iter(REASONS.get(code, lambda *_: ())(deck, line)), (None,))
    return token, told
