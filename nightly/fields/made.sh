# Schemas and texts that are made, of those of this folder of the repository, $root, in a folder, $room. It is sourced.

wide() { # a schema of 300 fields of the widths in turn, and a message that sets every seventh
    local types=(Bool Int8 UInt16 Int32 UInt64 Text Float64 UInt8 Int64 Bool) at
    {
        printf '@0xc0ffee0000000004;\nstruct Wide {\n'
        for ((at = 0; at < 300; at++)); do printf '  f%d @%d :%s;\n' "$at" "$at" "${types[at % 10]}"; done
        printf '}\n'
    } >"$room/wide.capnp"
    {
        printf '()\n('
        for ((at = 0; at < 300; at += 7)); do
            case ${types[at % 10]} in
            Bool) printf 'f%d = true, ' "$at" ;;
            Text) printf 'f%d = "t%d", ' "$at" "$at" ;;
            *) printf 'f%d = %d, ' "$at" "$((at % 120 + 1))" ;;
            esac
        done
        printf 'f299 = true)\n'
    } >"$room/wide.txt"
}

nulls() { # members of unions that have defaults, whose pointers are null, since the writer's schema knows them as void
    sed -Ez 's/(nine|ten) (@[0-9]+) :[A-Za-z]+ = [^;]+;/\1 \2 :Void;/g' "$root/nightly/fields/every.capnp" |
        sed -Ez ':again; s/(struct Defaults .* @[0-9]+) :[^;V][^;]*;/\1 :Void;/; t again' >"$room/void.capnp"
    printf '(%s = void)\n' nine ten >"$room/nulls.txt"
    printf '(defaults = (%s = void))\n' voids bools bytes halves quads words floats doubles colours texts datas smalls lists deep empty \
        small blank same pair box boxes every any >>"$room/nulls.txt"
}
