#!/usr/bin/env bash
# Tests the program of tests/json, which reads JSON and holds it to a schema: it takes what is JSON and refuses what is not, each
# keyword of a schema can say no, and a keyword that it does not know is refused.
set -u
cd -- "$(dirname -- "${BASH_SOURCE[0]}")/.." || exit
. tests/counting.sh || exit
json=$PWD/target/json/release/menduvo-json

# reads NAME STATUS SCHEMA: the validator's exit status on standard input.
reads() {
    out=$("$json" validate <(printf '%s' "$3") 2>&1)
    status=$?
    result "$1" test "$status" = "$2"
}

reader() {
    local text
    while read -r text; do
        reads "JSON: $text" 0 '{}' <<<"$text"
    done <<'GOOD'
{}
 { "a" : [ ] , "b" : { } , "c" : [ 1 , [ ] ] }
{"a":[0,-0,12,-1.5,1e3,1E-3,0.25e+2,true,false,null]}
{"a":"\"\\\/\b\f\n\r\t\u00e4\ud83d\ude00 ä😀"}
GOOD
    while read -r text; do
        reads "no JSON: $text" 1 '{}' <<<"$text"
    done <<'BAD'
[1]
1
null
{"a":01}
{"a":1.}
{"a":.5}
{"a":+1}
{"a":-}
{"a":1e}
{"a":0x10}
{"a":1e999}
{"a":NaN}
{"a":nul}
{"a":True}
{"a":1,}
{,}
{"a":[1,]}
{"a":[,1]}
{"a":[1 2]}
{"a" 1}
{"a"}
{a:1}
{'a':1}
{"a":1}}
{"a":1}{"b":1}
{"a":1
{"a":"x
{"a":"\x"}
{"a":"\u12g4"}
{"a":"\u+123"}
{"a":"\ud800"}
{"a":"\ud800\u0041"}
{"a":"\udc00"}
{"a":1,"a":2}
// {"a":1}
BAD
    reads 'an empty line' 1 '{}' <<<$'{}\n\n{}'
    reads 'a tab in a text' 1 '{}' <<<$'{"a":"\t"}'
    reads 'a form feed for a blank' 1 '{}' <<<$'{\f}'
    reads 'a mark of byte order' 1 '{}' <<<$'\xef\xbb\xbf{}'
    reads 'bytes that are no UTF-8' 1 '{}' <<<$'{"a":"\xff"}'
    reads 'no line' 1 '{}' </dev/null
    reads 'a line that does not end' 1 '{}' < <(printf '{}')
    reads 'lists without end' 1 '{}' < <(printf '{"a":'; printf '[%.0s' {1..100000}; echo)
    out=$("$json" get a 1 b <<<$'{"a":[0,{"b":"x\\u0041\\ny"}]}\n{"a":[0,{"b":1.5}]}')
    result 'a value is found' test "$out" = $'xA\ny\n1.5'
}

# Each keyword can say no, and one that is not known is refused wherever it stands. A line: status, schema, object.
keywords() {
    local wanted text object
    while IFS='|' read -r wanted text object; do
        reads "$text with $object" "$wanted" "$text" <<<"$object"
    done <<'SCHEMAS'
0|{"properties":{"a":{"type":"integer"}}}|{"a":1}
1|{"properties":{"a":{"type":"integer"}}}|{"a":1.5}
1|{"properties":{"a":{"type":"integer"}}}|{"a":"1"}
0|{"properties":{"a":{"type":"number"}}}|{"a":1.5}
1|{"properties":{"a":{"type":"number"}}}|{"a":true}
0|{"properties":{"a":{"type":["string","null"]}}}|{"a":null}
1|{"properties":{"a":{"type":["string","null"]}}}|{"a":false}
1|{"properties":{"a":{"type":"array"}}}|{"a":{}}
1|{"properties":{"a":{"type":"object"}}}|{"a":[]}
1|{"properties":{"a":{"type":"boolean"}}}|{"a":null}
0|{"properties":{"a":{"const":"x"}}}|{"a":"x"}
1|{"properties":{"a":{"const":"x"}}}|{"a":"y"}
1|{"properties":{"a":{"const":1}}}|{"a":"1"}
1|{"properties":{"a":{"enum":[1,"x"]}}}|{"a":2}
1|{"properties":{"a":{}},"required":["a"]}|{"b":1}
0|{"properties":{"a":{}},"required":["a"]}|{"b":1,"a":null}
1|{"properties":{"a":{}},"additionalProperties":false}|{"a":1,"b":1}
1|{"properties":{"a":{"items":{"const":1}}}}|{"a":[1,1,2]}
0|{"properties":{"a":{"minItems":2,"maxItems":3}}}|{"a":[1,1]}
1|{"properties":{"a":{"minItems":2,"maxItems":3}}}|{"a":[1]}
1|{"properties":{"a":{"minItems":2,"maxItems":3}}}|{"a":[1,1,1,1]}
0|{"properties":{"a":{"minimum":1,"maximum":2}}}|{"a":2}
1|{"properties":{"a":{"minimum":1,"maximum":2}}}|{"a":0}
1|{"properties":{"a":{"minimum":1,"maximum":2}}}|{"a":3}
0|{"properties":{"a":{"oneOf":[{"const":1},{"const":2}]}}}|{"a":2}
1|{"properties":{"a":{"oneOf":[{"const":1},{"const":2}]}}}|{"a":3}
1|{"properties":{"a":{"oneOf":[{"const":1},{"type":"integer"}]}}}|{"a":1}
0|{"$defs":{"x":{"const":1}},"properties":{"a":{"$ref":"#/$defs/x"}}}|{"a":1}
1|{"$defs":{"x":{"const":1}},"properties":{"a":{"$ref":"#/$defs/x"}}}|{"a":2}
2|{"pattern":"x"}|{}
2|{"properties":{"a":{"format":"x"}}}|{}
2|{"$defs":{"x":{"allOf":[]}}}|{}
2|{"properties":{"a":{"items":{"uniqueItems":true}}}}|{}
2|{"oneOf":[{"not":{}}]}|{}
2|{"additionalProperties":true}|{}
2|{"additionalProperties":{}}|{}
2|{"properties":{"a":true}}|{}
2|{"type":"int"}|{}
2|{"const":[1]}|{}
2|{"required":["a"],"properties":{"b":{}}}|{}
2|{"$ref":"#/$defs/none"}|{}
2|{"$ref":"other.json"}|{}
2|{"$defs":{"x":{"$ref":"#/$defs/x"}}}|{}
2|{"maximum":"1"}|{}
2|[]|{}
2|{"type":}|{}
SCHEMAS
    reads 'a path is told' 1 '{"properties":{"a":{"items":{"properties":{"b":{"const":1}}}}}}' <<<'{"a":[{},{"b":2}]}'
    result 'it is the path' test "$out" = 'line 1: /a/1/b: is none of: 1'
    reads 'a line is told' 1 '{"properties":{"a":{}},"required":["a"]}' <<<$'{"a":1}\n{}'
    result 'it is the line' test "$out" = "line 2: /: has no 'a'"
}

run cargo build --release --offline --locked --quiet --manifest-path tests/json/Cargo.toml --target-dir target/json
result 'the program is built' test "$status" = 0
[ "$failed" = 0 ] || { finish; exit; }
reader
keywords
finish
