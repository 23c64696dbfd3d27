#!/usr/bin/env bash
# The description of the desk over HTTP is good OpenAPI, and each of its examples is answered as it says.
. "$(dirname "${BASH_SOURCE[0]}")/helping.bash"
. "$tests/serving.bash"

perl -MJSON::Validator -MYAML::PP -MHTTP::Tiny -e 1 2>/dev/null || skips "there is no Perl with JSON::Validator and YAML::PP"
described=$top/docs/openapi.yaml
operations=$(grep -c '^      operationId:' "$described")
serves "$operations"
same "the examples" "$operations answered as described" "$(perl "$tests/openapi.pl" "$described" "$port" 2>&1)"
ends_well "the desk"
finish
