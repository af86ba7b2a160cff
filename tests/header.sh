#!/bin/sh
# The numbers of include/row_store.h against those of the definitions: no proof reads the header. It is read as text, so that no compiler is needed; what
# its comments say is not compared, but for the order of a cell's words. A line for each test, and at the end 'N passed, M failed'.
name=header
# shellcheck source=tests/common.sh
. "$(dirname "$0")/common.sh"
header=$root/include/row_store.h
cases=$root/crates/c_layout/specs/Cases.antt
answers=$root/crates/machine/specs/Answers.antt
table=$root/crates/machine/specs/Table.antt
layout=$root/crates/c_layout/src/lib.rt

# The file out, of the header, must be the file defined, of the definitions, and neither may be empty.
same() { # TEST
    : >err
    [ -s defined ] || echo 'no definition was read' >err
    expect "$1" defined nothing || diff out defined
}

# The members of an enum in the header, each a name and a number; and names of the definitions as the header writes them.
members() { # ENUM PREFIX
    sed -n "/^enum $1 {/,/^};/s/^ *$2\([A-Z_]*\) = \([0-9]*\),\{0,1\}\( .*\)\{0,1\}$/\1 \2/p" "$header"
}
in_capitals() {
    sed 's/[A-Z]/_&/g; s/^_//' | tr '[:lower:]' '[:upper:]'
}

members row_tag ROW_ >out
sed -n 's/^    \(∷ \)\{0,1\}case (*\([a-z]*\).* \([0-9]*\) [0-9]* [0-9]*$/\2 \3/p' "$cases" | in_capitals >defined
same 'the tags'

members row_refusal ROW_ >out
sed -n 's/^refusal_number \([A-Za-z]*\) = \([0-9]*\)$/\1 \2/p' "$answers" | in_capitals >defined
same 'the refusals'

members row_rule ROW_RULE_ >out
sed -n 's/^rule_number Rule\.\([A-Za-z]*\) = \([0-9]*\)$/\1 \2/p' "$answers" | in_capitals >defined
same 'the rules'

# A kind by the call of its packet: the two reads have one, and a replace is one of left or right.
members row_kind ROW_KIND_ | sort >out
sed -n 's/^packet_of t (\([a-z_]*\) .*) = packet \([0-9]*\) .*/\1 \2/p' "$root/crates/machine/specs/Calls.antt" |
    sed 's/^c[ad]r /read /; s/^set_/replace_/' | in_capitals | sort -u >defined
same 'the kinds'

# A number by its name in the header, and by its name in a module of specs.
number() { # NAME
    awk -v name="$1" '$1 == "#define" && $2 == name { print name, $3 }' "$header"
}
defined_number() { # NAME CRATE MODULE DEFINITION
    awk -v name="$1" -v definition="$4" '$1 == definition && $2 == "=" && NF == 3 { print name, $3 }' "$root/crates/$2/specs/$3.antt"
}
while read -r constant crate module definition; do
    number "$constant" >out
    defined_number "$constant" "$crate" "$module" "$definition" >defined
    same "$constant"
done <<END
ROW_FIRST_ATOM machine Words first_atom
ROW_CLIP machine Words clip
ROW_CEILING machine Words ceiling
ROW_MOST_CELLS machine Words most_cells
ROW_SLOTS machine Queue slots
ROW_MOST_TEXT notation Grammar most_text
ROW_MOST_OPEN notation Brackets most_open
END

# Nil is the word that is_nil asks for.
number ROW_NIL >out
sed -n 's/^is_nil w = eqb w \([0-9]*\)$/ROW_NIL \1/p; s/^is_nil w = w == \([0-9]*\)$/ROW_NIL \1/p' "$root/crates/machine/specs/Words.antt" >defined
same ROW_NIL

# The two formulas, with the definition's numbers in the place of its names.
formula() { # NAME
    sed -n "s/^#define $1(c) \(.*\)/\1/p" "$header"
}
number_of() { # DEFINITION
    sed -n "s/^$1 = \([0-9]*\)$/\1/p" "$table"
}
before=$(number_of header)
each=$(number_of stride)
formula ROW_TABLE_WORDS >out
sed -n "s/^table_length c = header + stride \* c$/($before + $each * (size_t)(c))/p" "$table" >defined
same 'the words of a table'

formula ROW_SCRATCH_WORDS >out
sed -n 's/^scratch_words c = c$/((size_t)(c))/p' "$table" >defined
same 'the words of the scratch'

# Where a cell begins, and its words in their order, in the comment on the table, whose stars are left out.
tr -s '* \n' ' ' <"$header" | grep -o 'words for each cell: [a-z, ]*\. Cell x begins at word [^.]*\.' >out
for definition in left right root_count cell_count state name_count; do
    echo "$(number_of "$definition") $definition"
done | sort -n | awk '$1 == NR - 1 { print $2 }' | tr _ ' ' | paste -s -d , - |
    sed "s/,/, /g; s/.*/words for each cell: &. Cell x begins at word $before + $each (x - 1)./" >defined
same 'the words of a cell'

# The members of a struct in their order: with their type, and with the first word and how many words they are.
struct() { # STRUCT
    sed -n "/^struct $1 {/,/^};/s/^ *\([a-z0-9_]*\) \([a-z]*\)\(\[ROW_SLOTS\]\)\{0,1\};$/\1 \2 \3/p" "$header"
}
slots=$(number ROW_SLOTS)
struct row_queue | awk -v slots="${slots#* }" '{ words = NF == 3 ? slots : 1; print $2, at + 0, words; at += words } END { print "words", at }' >out
sed -n 's/^  pub \([a-z]*\) : (queue_in places)\.\1 ≡ from \([0-9]*\) \([0-9]*\)$/\1 \2 \3/p
    s/^  pub \([a-z]*\) : (queue_in places)\.\1 ≡ \([0-9]*\)$/\1 \2 1/p' "$cases" >defined
sed -n 's/^  pub words : queue_words ≡ \([0-9]*\)$/words \1/p' "$cases" >>defined
same "the queue's words"

struct row_reply | sed 's/^uint16_t/u16/; s/^size_t/usize/' >out
sed -n '/^pub struct Reply {/,/^}/s/^ *pub \([a-z]*\): \([a-z0-9]*\),$/\2 \1 /p' "$layout" >defined
same "the reply's members"

# What the header has the compiler assert: bytes, at two a word, and eight of a count, which begins where eight divides.
asserted() { # STRUCT
    sed -n "s/^ROW_LAYOUT(offsetof(struct $1, \([a-z]*\)) == \([0-9]*\));$/\1 \2/p; s/^ROW_LAYOUT(sizeof(struct $1) == \([0-9]*\));$/size \1/p" "$header"
}
asserted row_queue >out
sed -n 's/^  pub words : queue_words ≡ \([0-9]*\)$/\1/p' "$cases" | awk '{ print "size", 2 * $1 }' >defined
sed -n 's/^  pub \([a-z]*\) : (queue_in places)\.\1 ≡ \(from \)\{0,1\}\([0-9]*\).*$/\1 \3/p' "$cases" | awk '{ print $1, 2 * $2 }' >>defined
same "the bytes of the queue"

asserted row_reply >out
sed -n '/^pub struct Reply {/,/^}/s/^ *pub \([a-z]*\): \([a-z0-9]*\),$/\2 \1/p' "$layout" | awk '
    { bytes = $1 == "usize" ? 8 : 2; at = int((at + bytes - 1) / bytes) * bytes; lines = lines $2 " " at "\n"; at += bytes; if (bytes > most) most = bytes }
    END { if (NR) printf "size %d\n%s", int((at + most - 1) / most) * most, lines }' >defined
same "the bytes of the reply"

# The operands of each call by place, name and type: the header's, and those of the functions that C calls, as C writes them.
tr -s ' \n' ' ' <"$header" | grep -o 'struct row_reply row_[a-z_]*([^)]*)' | sed 's/^struct row_reply //' >out
tr -s ' \n' ' ' <"$root/crates/c_store_c/src/lib.rt" | grep -o 'pub extern "C" fn row_[a-z_]*([^)]*) -> Reply' | sed '
    s/^pub extern "C" fn //; s/ -> Reply$//; s/( /(/; s/,\{0,1\} )/)/
    s/\([a-z]*\): u16/uint16_t \1/g
    s/\([a-z]*\): &mut \[u16; QUEUE_WORDS\]/struct row_queue *\1/; s/\([a-z]*\): &\[u16; QUEUE_WORDS\]/const struct row_queue *\1/
    s/\([a-z]*\): &mut \[u16\]/uint16_t *\1, size_t \1_words/g; s/\([a-z]*\): &\[u16\]/const uint16_t *\1, size_t \1_words/g
    s/\([a-z]*\): &mut \[u8\]/uint8_t *\1, size_t \1_bytes/; s/\([a-z]*\): &\[u8\]/const uint8_t *\1, size_t \1_bytes/' >defined
same 'the operands of each call'

conclude
