#!/bin/sh
# Makes the library of an object file of asremote.
#
#     clients/c/build.sh OBJECT WORD FOLDER
#
# OBJECT is crates/asremote/out/asremote.o, as `rt ci` leaves it where it builds it, with the WORD `proved`; or what tools/build_unproved.py made
# (`asremote PROGRAM --object OBJECT`), with the WORD `unproved`. bb_version() says the word. FOLDER has afterwards
#
#     include/bustlebrick.h
#     lib/libbustlebrick.a, lib/libbustlebrick.so
#     lib/pkgconfig/bustlebrick.pc     it finds the other two by where it stands, so that the folder may be copied anywhere
#
# The object stays as it is but for names: its `main`, and what it calls of the system, are renamed to functions of program.c.
# Where it calls anything else than these, functions that only move or compare bytes, and one that tells what the processor
# has, nothing is made. CC and CFLAGS are those of make; objcopy, objdump, ld, ar and nm are binutils.
set -eu
[ $# = 3 ] || { sed -n '4p' "$0" >&2; exit 2; }
here=$(cd "$(dirname "$0")" && pwd)
object=$1
word=$2
mkdir -p "$3/include" "$3/lib/pkgconfig"
to=$(cd "$3" && pwd)
[ "$word" = proved ] || [ "$word" = unproved ] || { echo "proved or unproved, and not $word" >&2; exit 2; }
[ -f "$object" ] || { echo "there is no $object: run rt ci first, or see UNPROVED in clients/c/README.md" >&2; exit 2; }
folder=$(mktemp -d)
trap 'rm -rf "$folder"' EXIT

# What the program has of the system, and what stands for it.
cat > "$folder/names" <<'END'
main bb_program_main
read bb_read
write bb_write
__write bb_write_plainly
open bb_open
close bb_close
__sysv_signal bb_signal
rattle_alloc bb_alloc
rattle_realloc bb_realloc
rattle_dealloc bb_dealloc
rattle_arg bb_arg
rattle_errno bb_errno
rattle_set_errno bb_set_errno
END
harmless='mem(cpy|move|set|cmp)|bcmp|__x86_get_cpuid_feature_leaf|_GLOBAL_OFFSET_TABLE_'
nm -u "$object" | sed 's/.* //' | grep -vxE "$harmless" | sort > "$folder/called"
sed 's/ .*//' "$folder/names" | sort > "$folder/answered"
others=$(comm -23 "$folder/called" "$folder/answered")
[ -z "$others" ] || { echo "the program calls what program.c does not answer:" $others >&2; exit 1; }

# A frame as large as the guard below the stack (GUARD of stack.c, 1 MiB) could reach over it.
if objdump -d --no-show-raw-insn "$object" | grep -qE 'sub +\$0x[0-9a-f]{6,8},%rsp'; then
    echo "a function of the program has a frame of 1 MiB or more" >&2
    exit 1
fi

number=$(sed -n 's/^#define BUSTLEBRICK_VERSION "\(.*\)"/\1/p' "$here/bustlebrick.h")
version="$word $number $(sha256sum "$object" | cut -c1-16)"
objcopy --redefine-syms="$folder/names" "$object" "$folder/asremote.o"
for file in bustlebrick lines posts program stack; do
    ${CC:-cc} -std=gnu11 ${CFLAGS:--O2} -Wall -Wextra -fPIC -fexceptions -DBB_VERSION="\"$version\"" \
        -c "$here/$file.c" -o "$folder/$file.o"
done

# The functions of the header are the only names that leave the library.
sed -n 's/^[a-z].*[ *]\(bb_[a-z_]*\)(.*/\1/p' "$here/bustlebrick.h" > "$folder/functions"
case ${CFLAGS:-} in *-DBB_TRIAL*) printf 'bb_refuse_growth\nbb_growths\n' >> "$folder/functions" ;; esac
cd "$folder"
ld -r -z noexecstack asremote.o bustlebrick.o lines.o posts.o program.o stack.o -o whole.o
objcopy --keep-global-symbols=functions whole.o libbustlebrick.o
rm -f "$to/lib/libbustlebrick.a"
ar rcs "$to/lib/libbustlebrick.a" libbustlebrick.o
${CC:-cc} ${CFLAGS:--O2} -shared -Wl,-soname,libbustlebrick.so -Wl,--gc-sections -Wl,-z,noexecstack \
    libbustlebrick.o -o "$to/lib/libbustlebrick.so"
cp "$here/bustlebrick.h" "$to/include/"
cat > "$to/lib/pkgconfig/bustlebrick.pc" <<END
prefix=\${pcfiledir}/../..

Name: bustlebrick
Description: An engine for scripts in AngelScript, inside the host's process
Version: $number
Cflags: -I\${prefix}/include
Libs: -L\${prefix}/lib -lbustlebrick
END
echo "$to has the library, $version"
