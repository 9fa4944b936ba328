#!/usr/bin/env bash
# Runs the program graphql_print on words, files and inputs that its tests cannot hand over, and on a table of inputs that it refuses, and
# compares each run's exit status, standard output and standard error with what is wanted. The program is that which `rt run` or `rt ci` left.
#
#   tools/graphql_print_cases.sh
set -u
cd "$(dirname "$0")/../crates/graphql_print" || exit 1
query='{"kind":"Document","definitions":[{"kind":"OperationDefinition","operation":"query","selectionSet":{"kind":"SelectionSet","selections":[{"kind":"Field","name":{"kind":"Name","value":"a"}}]}}]}'
program=$PWD/out/graphql_print
if ! [ -x "$program" ]; then
    echo "the program is not built: $program" >&2
    exit 1
fi
room=$(mktemp -d) || exit 1
trap 'rm -rf "$room"' EXIT
cd "$room" || exit 1
cases=0
failed=0

# Compares what the last run wrote, and its status, with what is wanted: a text of standard output and one of standard error.
compare() {
    local name=$1 status=$2 wanted=$3 out=$4 err=$5
    cases=$((cases + 1))
    if [ "$status" -ne "$wanted" ]; then
        echo "$name: status $status, and not $wanted"
        failed=1
    fi
    if ! cmp -s out <(printf '%s' "$out"); then
        echo "$name: standard output is not as wanted: $(head -c 200 out)"
        failed=1
    fi
    if ! cmp -s err <(printf '%s' "$err"); then
        echo "$name: standard error is not as wanted: $(head -c 400 err)"
        failed=1
    fi
}

# Runs the program on an input and words, and compares: the status, standard output and standard error that are wanted, the input, the words.
check() {
    local wanted=$1 out=$2 err=$3 input=$4 status
    shift 4
    printf '%s' "$input" >in
    "$program" "$@" <in >out 2>err
    status=$?
    compare "<$*> $(head -c 100 in)" "$status" "$wanted" "$out" "$err"
}

# The same, where words are wrong: how standard error begins is wanted.
check_words() {
    local said=$1 status
    shift
    printf '%s' "$query" >in
    "$program" "$@" <in >out 2>err
    status=$?
    compare "<$*>" "$status" 2 '' "$(cat err)"$'\n'
    if [ "$(head -n 1 err)" != "error: $said" ]; then
        echo "<$*>: $(head -n 1 err)"
        failed=1
    fi
}

# What each word of the table stands for in an input.
expand() {
    local text=$1 name='{"kind":"Name","value":"a"}' set
    set='{"kind":"SelectionSet","selections":[{"kind":"Field","name":'$name'}]}'
    case $text in "D "*) text='{"kind":"Document","definitions":['${text#D }']}' ;; esac
    text=${text//@name/"$name"}
    text=${text//@set/"$set"}
    text=${text//@one/'{"kind":"IntValue","value":"1"}'}
    printf '%s' "${text//@T/'{"kind":"NamedType","name":'"$name"'}'}"
}

# Checks each row of the table: the status and the first line of standard error, any further lines, and the input.
check_table() {
    local line wanted='' err=''
    while IFS= read -r line; do
        case $line in
            '#'*) ;;
            '> '* | '>') check "$wanted" '' "$err" "$(expand "${line:2}")" ;;
            '  '*) err+="graphql_print: standard input: ${line:2}"$'\n' ;;
            *)
                wanted=${line%% *}
                err="graphql_print: standard input: ${line#* }"$'\n'
                ;;
        esac
    done
}

front='graphql_print: '

# What is asked for is printed.
check 0 $'{\n  a\n}\n' '' "$query"
check 0 $'{\n\ta\n}\n' '' "$query" --tabs
check 0 $'{ a }\n' '' "$query" --one-line -
check 0 $'   query {\n      a\n   }\n' '' "$query" --indent=3 --level 1
check 0 '' '' "$query" --check
check 0 '{"definitions":[{"directives":[],"kind":"OperationDefinition","operation":"query","selectionSet":{"kind":"SelectionSet","selections":[{"arguments":[],"directives":[],"kind":"Field","name":{"kind":"Name","value":"a"}}]},"variableDefinitions":[]}],"kind":"Document"}'$'\n' '' "$query" --json
# AST JSON over several lines is what Python makes of that on one line.
indented='import json, sys; print(json.dumps(json.loads(sys.argv[1]), indent=int(sys.argv[2])))'
for width in 0 1 2 4 16; do
    check 0 "$(python3 -c "$indented" "$(printf '%s' "$query" | "$program" --json)" "$width")"$'\n' '' "$query" --json --indent "$width"
done
check 0 $'graphql_print 0.1.0\n' '' '' --version

# Words that are wrong.
check_words "unexpected argument '--no-such' found" --no-such
check_words "unexpected argument 'b' found" a b
check_words "invalid value '17' for '--indent <N>': 17 is not in 0..=16" --indent 17
check_words "invalid value '' for '--indent <N>': cannot parse integer from empty string" --indent=
check_words "invalid value '99999999999999999999' for '--level <N>': number too large to fit in target type" --level 99999999999999999999
check_words "the argument '--indent <N>' cannot be used with '--one-line'" --indent 2 --one-line
check_words "the argument '--json' cannot be used with '--tabs'" --json --tabs
check 2 '' "${front}arguments: invalid data"$'\n' '' $'\xff'

# Files that cannot be read, and what stands in them.
check 3 '' "${front}no-such.json: No such file or directory (os error 2)"$'\n' '' no-such.json
check 3 '' "${front}$room: Is a directory (os error 21)"$'\n' '' "$room"
check 3 '' "${front}no-such.graphql: No such file or directory (os error 2)"$'\n' "$query" --source no-such.graphql
check 3 '' "${front}: No such file or directory (os error 2)"$'\n' '' ''
printf '%s' '{"kind":"Document","definitions":[{"kind":"ScalarTypeExtension","name":{"kind":"Name","value":"S"},"loc":{"start":6,"end":21}}]}' >flaw.json
printf '# \xf0\x9f\x98\x80\n\nextend scalar S\n' >flaw.graphql
check 1 '' "${front}flaw.json: at \`definitions[0]\`, in a node from 6 to 21: an extension that adds nothing: \`S\`"$'\n' '' flaw.json
check 1 '' "${front}flaw.json: at \`definitions[0]\` in flaw.graphql:3:1: an extension that adds nothing: \`S\`"$'\n' '' --check --source flaw.graphql flaw.json
check 0 $'extend scalar S\n' '' '' --allow-ill-formed flaw.json
name='{"kind":"Name","value":"true"}'
printf '%s' '{"kind":"Document","definitions":[{"kind":"EnumTypeDefinition","name":'"$name"',"values":[{"kind":"EnumValueDefinition","name":'"$name"'},' \
    '{"kind":"EnumValueDefinition","name":{"kind":"Name","value":"A"}},{"kind":"EnumValueDefinition","name":'"$name"'}]},' \
    '{"kind":"ScalarTypeDefinition","name":'"$name"'},{"kind":"ScalarTypeExtension","name":{"kind":"Name","value":"S"}}]}' >flaws.json
flaws="${front}flaws.json: at \`definitions[0].values[0].name.value\`: a reserved enum value: \`true\`"$'\n'
flaws+="${front}flaws.json: at \`definitions[0].values[2].name.value\`: a reserved enum value: \`true\`"$'\n'
flaws+="${front}flaws.json: at \`definitions[2]\`: an extension that adds nothing: \`S\`"$'\n'
check 1 '' "$flaws" '' --check flaws.json
printf '{"kind":"\xff"}' >bytes.json
check 3 '' "${front}bytes.json: not JSON: not UTF-8 from byte 9 on"$'\n' '' bytes.json
deep=$(printf '[%.0s' {1..200})
check 3 '' "${front}standard input: arrays and objects stand in one another more than 127 deep"$'\n' "$deep"

# Inputs of a size: a million brackets, and 100 MB of blanks, of a text in an unknown member, and of one in a description.
head -c 1000000 /dev/zero | tr '\0' '[' >large.json
check 3 '' "${front}large.json: arrays and objects stand in one another more than 127 deep"$'\n' '' large.json
head -c 100000000 /dev/zero | tr '\0' ' ' >large.json
check 3 '' "${front}large.json: not JSON: EOF while parsing at line 1 column 100000000"$'\n' '' large.json
{ printf '{"kind":"Document","definitions":[],"a":"'; head -c 100000000 /dev/zero | tr '\0' x; printf '"}'; } >large.json
check 3 '' "${front}large.json: at the root: found a member \`a\`, which no Document has"$'\n' '' large.json
{
    printf '{"kind":"Document","definitions":[{"kind":"ScalarTypeDefinition","name":{"kind":"Name","value":"A"},"description":{"kind":"StringValue","value":"'
    head -c 100000000 /dev/zero | tr '\0' x
    printf '"}}]}'
} >large.json
check 0 '' '' '' --check large.json
rm large.json

# Standard output that takes nothing is a fault, and standard error that takes nothing changes no status.
for word in --tabs --one-line --json --help; do
    : >out
    printf '%s' "$query" | "$program" "$word" >/dev/full 2>err
    status=$?
    err="${front}standard input: the writer failed"$'\n'
    [ "$word" != --help ] || err=''
    compare "a refused print, $word" "$status" 4 '' "$err"
done
: >err
"$program" --check <flaw.json >out 2>/dev/full
compare 'a refused report' "$?" 1 '' ''
"$program" --no-such >out 2>/dev/full
compare 'a refused report of words' "$?" 2 '' ''
printf '%s' "$query" | "$program" --check >/dev/full 2>err
: >out
compare 'a check needs no standard output' "$?" 0 '' ''

check_table <<'TABLE'
# texts that are no JSON
3 not JSON: EOF while parsing at line 1 column 0
> 
3 not JSON: EOF while parsing at line 1 column 1
> {
3 not JSON: EOF while parsing at line 1 column 1
> [
3 not JSON: EOF while parsing at line 1 column 1
> nul
3 not JSON: EOF while parsing at line 1 column 1
> tru
3 not JSON: invalid JSON at line 1 column 3
> {}{}
3 not JSON: EOF while parsing at line 1 column 35
> {"kind":"Document","definitions":[]
3 not JSON: invalid JSON at line 1 column 37
> {"kind":"Document","definitions":[]},
3 not JSON: invalid JSON at line 1 column 20
> {"kind":"Document" "definitions":[]}
3 not JSON: invalid JSON at line 1 column 35
> {"kind":"Document","definitions":[,]}
3 not JSON: invalid JSON at line 1 column 2
> {kind:"Document"}
3 not JSON: invalid JSON at line 1 column 2
> {'kind':'Document'}
3 not JSON: invalid JSON at line 1 column 37
> {"kind":"Document","definitions":[],}
3 not JSON: EOF while parsing at line 1 column 9
> {"kind":"Docu
3 not JSON: invalid JSON at line 1 column 9
> {"kind":"\x41"}
3 not JSON: invalid JSON at line 1 column 9
> {"kind":"\ud800"}
3 not JSON: invalid JSON at line 1 column 9
> {"kind":"\u12"}
3 not JSON: invalid JSON at line 1 column 1
> 01
3 not JSON: EOF while parsing at line 1 column 1
> 1.
3 not JSON: invalid JSON at line 1 column 1
> +1
3 not JSON: invalid JSON at line 1 column 1
> NaN
3 not JSON: invalid JSON at line 1 column 1
> # a comment
3 not JSON: invalid JSON at line 1 column 1
> query { a }
3 not JSON: invalid JSON at line 1 column 1
> <xml/>
3 not JSON: number out of range at line 1 column 40
> {"kind":"Document","definitions":[1e999]}
# JSON that is no object, or no document
3 at the root: found null where an object was wanted
> null
3 at the root: found a boolean where an object was wanted
> true
3 at the root: found a number where an object was wanted
> 7
3 at the root: found a number where an object was wanted
> -1.5
3 at the root: found a string where an object was wanted
> "Document"
3 at the root: found an array where an object was wanted
> []
3 at the root: found no member `kind`, which each node has
> {}
3 at the root: found no member `kind`, which each node has
> {"kind":null}
3 at `kind`: found a number where a string was wanted
> {"kind":7}
3 at `kind`: found the kind an empty text where Document was wanted
> {"kind":""}
3 at `kind`: found the kind `document` where Document was wanted
> {"kind":"document"}
3 at `kind`: found the kind `Documents` where Document was wanted
> {"kind":"Documents"}
3 at `kind`: found the kind `Field` where Document was wanted
> {"kind":"Field","name":@name}
3 at the root: found no member `definitions`, which each Document has
> {"kind":"Document"}
3 at the root: found no member `definitions`, which each Document has
> {"kind":"Document","definitions":null}
3 at `definitions`: found a number where an array was wanted
> {"kind":"Document","definitions":7}
3 at `definitions`: found an object where an array was wanted
> {"kind":"Document","definitions":{}}
3 at `definitions`: found a string where an array was wanted
> {"kind":"Document","definitions":"a"}
3 at `definitions[0]`: found null where an object was wanted
> {"kind":"Document","definitions":[null]}
3 at `definitions[0]`: found a number where an object was wanted
> {"kind":"Document","definitions":[7]}
3 at `definitions[0]`: found an array where an object was wanted
> {"kind":"Document","definitions":[[]]}
3 at `definitions[0]`: found no member `kind`, which each node has
> {"kind":"Document","definitions":[{}]}
3 at the root: found a member `extra`, which no Document has
> {"kind":"Document","definitions":[],"extra":1}
3 at the root: found a member `a\0\u{202e}b`, which no Document has
> {"kind":"Document","definitions":[],"a\u0000\u202eb":1}
3 at `loc`: found a number where an object was wanted
> {"kind":"Document","definitions":[],"loc":7}
3 at `loc`: found no member `end`, which each location has
> {"kind":"Document","definitions":[],"loc":{"start":0}}
3 at `loc`: found a location from 2 to 1, which starts after its end
> {"kind":"Document","definitions":[],"loc":{"start":2,"end":1}}
3 at `loc.start`: found a number that is no integer from 0 to 4294967295
> {"kind":"Document","definitions":[],"loc":{"start":-1,"end":1}}
3 at `loc.end`: found a number that is no integer from 0 to 4294967295
> {"kind":"Document","definitions":[],"loc":{"start":0,"end":4294967296}}
3 at `loc.start`: found a number that is no integer from 0 to 4294967295
> {"kind":"Document","definitions":[],"loc":{"start":0.5,"end":1}}
3 at `loc`, in a node from 0 to 1: found a member `line`, which no location has
> {"kind":"Document","definitions":[],"loc":{"start":0,"end":1,"line":1}}
# definitions
3 at `definitions[0].kind`: found the kind `Query` where a definition was wanted
> D {"kind":"Query"}
3 at `definitions[0]`: found no member `operation`, which each OperationDefinition has
> D {"kind":"OperationDefinition"}
3 at `definitions[0]`: found no member `operation`, which each OperationDefinition has
> D {"kind":"OperationDefinition","selectionSet":@set}
3 at `definitions[0].operation`: found `get` where an operation type was wanted
> D {"kind":"OperationDefinition","operation":"get","selectionSet":@set}
3 at `definitions[0].operation`: found `Query` where an operation type was wanted
> D {"kind":"OperationDefinition","operation":"Query","selectionSet":@set}
3 at `definitions[0].operation`: found a number where a string was wanted
> D {"kind":"OperationDefinition","operation":7,"selectionSet":@set}
3 at `definitions[0]`: found no member `selectionSet`, which each OperationDefinition has
> D {"kind":"OperationDefinition","operation":"query","selectionSet":null}
3 at `definitions[0].selectionSet`: found an array where an object was wanted
> D {"kind":"OperationDefinition","operation":"query","selectionSet":[]}
3 at `definitions[0].selectionSet`: found no member `selections`, which each SelectionSet has
> D {"kind":"OperationDefinition","operation":"query","selectionSet":{"kind":"SelectionSet"}}
3 at `definitions[0].selectionSet.selections[0].kind`: found the kind `Name` where a selection was wanted
> D {"kind":"OperationDefinition","operation":"query","selectionSet":{"kind":"SelectionSet","selections":[@name]}}
3 at `definitions[0].name`: found a string where an object was wanted
> D {"kind":"OperationDefinition","operation":"query","selectionSet":@set,"name":"a"}
3 at `definitions[0].name.value`: found an empty text where a name was wanted
> D {"kind":"OperationDefinition","operation":"query","selectionSet":@set,"name":{"kind":"Name","value":""}}
3 at `definitions[0].name.value`: found `a b` where a name was wanted
> D {"kind":"OperationDefinition","operation":"query","selectionSet":@set,"name":{"kind":"Name","value":"a b"}}
3 at `definitions[0].name.value`: found `1a` where a name was wanted
> D {"kind":"OperationDefinition","operation":"query","selectionSet":@set,"name":{"kind":"Name","value":"1a"}}
3 at `definitions[0].name.value`: found `é` where a name was wanted
> D {"kind":"OperationDefinition","operation":"query","selectionSet":@set,"name":{"kind":"Name","value":"é"}}
3 at `definitions[0].directives`: found a number where an array was wanted
> D {"kind":"OperationDefinition","operation":"query","selectionSet":@set,"directives":7}
3 at `definitions[0].variableDefinitions[0].kind`: found the kind `Name` where VariableDefinition was wanted
> D {"kind":"OperationDefinition","operation":"query","selectionSet":@set,"variableDefinitions":[@name]}
3 at `definitions[0]`: found a member `fragments`, which no OperationDefinition has
> D {"kind":"OperationDefinition","operation":"query","selectionSet":@set,"fragments":[]}
3 at `definitions[0]`: found no member `typeCondition`, which each FragmentDefinition has
> D {"kind":"FragmentDefinition","name":@name,"selectionSet":@set}
3 at `definitions[0]`: found no member `name`, which each FragmentDefinition has
> D {"kind":"FragmentDefinition","typeCondition":@T,"selectionSet":@set}
3 at `definitions[0]`: found no member `name`, which each ScalarTypeDefinition has
> D {"kind":"ScalarTypeDefinition"}
3 at `definitions[0].name`, in a node from 4 to 9: found a number where an object was wanted
> D {"kind":"ScalarTypeDefinition","name":7,"loc":{"start":4,"end":9}}
3 at `definitions[0]`: found a member `fields`, which no ScalarTypeDefinition has
> D {"kind":"ScalarTypeDefinition","name":@name,"fields":[]}
3 at `definitions[0].description`: found a string where an object was wanted
> D {"kind":"ScalarTypeDefinition","name":@name,"description":"text"}
3 at `definitions[0].description.value`: found a number where a string was wanted
> D {"kind":"ScalarTypeDefinition","name":@name,"description":{"kind":"StringValue","value":7}}
3 at `definitions[0].description.block`: found a number where a boolean was wanted
> D {"kind":"ScalarTypeDefinition","name":@name,"description":{"kind":"StringValue","value":"a","block":1}}
3 at `definitions[0].interfaces[0].kind`: found the kind `Name` where NamedType was wanted
> D {"kind":"ObjectTypeDefinition","name":@name,"interfaces":[@name]}
3 at `definitions[0].fields[0]`: found no member `type`, which each FieldDefinition has
> D {"kind":"ObjectTypeDefinition","name":@name,"fields":[{"kind":"FieldDefinition","name":@name}]}
3 at `definitions[0].fields[0].type`: found no member `type`, which each ListType has
> D {"kind":"ObjectTypeDefinition","name":@name,"fields":[{"kind":"FieldDefinition","name":@name,"type":{"kind":"ListType"}}]}
3 at `definitions[0].fields[0].type.type.kind`: found the kind `NonNullType` where a named type or a list type was wanted
> D {"kind":"ObjectTypeDefinition","name":@name,"fields":[{"kind":"FieldDefinition","name":@name,"type":{"kind":"NonNullType","type":{"kind":"NonNullType","type":@T}}}]}
3 at `definitions[0].fields[0]`: found a member `defaultValue`, which no FieldDefinition has
> D {"kind":"ObjectTypeDefinition","name":@name,"fields":[{"kind":"FieldDefinition","name":@name,"type":@T,"defaultValue":@one}]}
3 at `definitions[0].fields[0].defaultValue.value`: found `01` where an integer was wanted
> D {"kind":"InputObjectTypeDefinition","name":@name,"fields":[{"kind":"InputValueDefinition","name":@name,"type":@T,"defaultValue":{"kind":"IntValue","value":"01"}}]}
3 at `definitions[0].fields[0].defaultValue.value`: found a number where a string was wanted
> D {"kind":"InputObjectTypeDefinition","name":@name,"fields":[{"kind":"InputValueDefinition","name":@name,"type":@T,"defaultValue":{"kind":"IntValue","value":1}}]}
3 at `definitions[0].fields[0].defaultValue.value`: found `1` where a float was wanted
> D {"kind":"InputObjectTypeDefinition","name":@name,"fields":[{"kind":"InputValueDefinition","name":@name,"type":@T,"defaultValue":{"kind":"FloatValue","value":"1"}}]}
3 at `definitions[0].fields[0].defaultValue.value`: found a string where a boolean was wanted
> D {"kind":"InputObjectTypeDefinition","name":@name,"fields":[{"kind":"InputValueDefinition","name":@name,"type":@T,"defaultValue":{"kind":"BooleanValue","value":"true"}}]}
3 at `definitions[0].fields[0].defaultValue`: found no member `values`, which each ListValue has
> D {"kind":"InputObjectTypeDefinition","name":@name,"fields":[{"kind":"InputValueDefinition","name":@name,"type":@T,"defaultValue":{"kind":"ListValue"}}]}
3 at `definitions[0].repeatable`: found a string where a boolean was wanted
> D {"kind":"DirectiveDefinition","name":@name,"repeatable":"no","locations":[]}
3 at `definitions[0].locations[0].value`: found `NOWHERE` where a directive location was wanted
> D {"kind":"DirectiveDefinition","name":@name,"locations":[{"kind":"Name","value":"NOWHERE"}]}
3 at `definitions[0].operationTypes[0]`: found no member `type`, which each OperationTypeDefinition has
> D {"kind":"SchemaDefinition","operationTypes":[{"kind":"OperationTypeDefinition","operation":"query"}]}
3 at `definitions[0].types`: found an object where an array was wanted
> D {"kind":"UnionTypeDefinition","name":@name,"types":@T}
3 at `definitions[0].values[0]`: found a string where an object was wanted
> D {"kind":"EnumTypeDefinition","name":@name,"values":["A"]}
# documents that are not well formed
1 at the root: a document without a definition
> {"kind":"Document","definitions":[]}
1 at `definitions[0].selectionSet`: an empty selection set
> D {"kind":"OperationDefinition","operation":"query","selectionSet":{"kind":"SelectionSet","selections":[]}}
1 at `definitions[0].selectionSet.selections[0].selectionSet`: an empty selection set
> D {"kind":"OperationDefinition","operation":"query","selectionSet":{"kind":"SelectionSet","selections":[{"kind":"InlineFragment","selectionSet":{"kind":"SelectionSet","selections":[]}}]}}
1 at `definitions[0].selectionSet.selections[0].name.value`: a fragment named `on`: `on`
> D {"kind":"OperationDefinition","operation":"query","selectionSet":{"kind":"SelectionSet","selections":[{"kind":"FragmentSpread","name":{"kind":"Name","value":"on"}}]}}
1 at `definitions[0].selectionSet.selections[0].arguments[0].value.value`: a reserved enum value: `true`
> D {"kind":"OperationDefinition","operation":"query","selectionSet":{"kind":"SelectionSet","selections":[{"kind":"Field","name":@name,"arguments":[{"kind":"Argument","name":@name,"value":{"kind":"EnumValue","value":"true"}}]}]}}
1 at `definitions[0].variableDefinitions[0].defaultValue`: a variable where only constants may stand: `a`
> D {"kind":"OperationDefinition","operation":"query","selectionSet":@set,"variableDefinitions":[{"kind":"VariableDefinition","variable":{"kind":"Variable","name":@name},"type":@T,"defaultValue":{"kind":"Variable","name":@name}}]}
1 at `definitions[0].name.value`: a fragment named `on`: `on`
> D {"kind":"FragmentDefinition","name":{"kind":"Name","value":"on"},"typeCondition":@T,"selectionSet":@set}
1 at `definitions[0]`: an extension that adds nothing: `a`
> D {"kind":"ScalarTypeExtension","name":@name}
1 at `definitions[0]`: an extension that adds nothing: `a`
> D {"kind":"ObjectTypeExtension","name":@name,"interfaces":[],"directives":[],"fields":[]}
1 at `definitions[0]`: a schema definition without a root operation
> D {"kind":"SchemaDefinition","operationTypes":[]}
1 at `definitions[0]`: an extension that adds nothing
> D {"kind":"SchemaExtension"}
1 at `definitions[0]`: a directive definition without a location: `a`
> D {"kind":"DirectiveDefinition","name":@name,"locations":[]}
1 at `definitions[0].values[0].name.value`: a reserved enum value: `null`
> D {"kind":"EnumTypeDefinition","name":@name,"values":[{"kind":"EnumValueDefinition","name":{"kind":"Name","value":"null"}}]}
1 at `definitions[0].directives[0].arguments[0].value.values[0]`: a variable where only constants may stand: `a`
> D {"kind":"ScalarTypeDefinition","name":@name,"directives":[{"kind":"Directive","name":@name,"arguments":[{"kind":"Argument","name":@name,"value":{"kind":"ListValue","values":[{"kind":"Variable","name":@name}]}}]}]}
1 at `definitions[0]`: an extension that adds nothing: `a`
  at `definitions[2]`, in a node from 3 to 9: an extension that adds nothing
> D {"kind":"ScalarTypeExtension","name":@name},{"kind":"ScalarTypeDefinition","name":@name},{"kind":"SchemaExtension","loc":{"start":3,"end":9}}
TABLE

[ "$failed" -ne 0 ] || echo "each of $cases runs ended as wanted"
exit "$failed"
