#!/usr/bin/env bash
# An administrator's first day with a site ends as `docs/operations.md` says: what `examples/run-a-site.sh` prints is what the page has under
# 'A site, step by step', line by line. A busy machine may stop the nodes for longer than the drift, so it has a second try. Some twenty
# seconds.
set -u
cd "$(dirname "$0")/.." || exit 1
page=$(sed -n '/^## A site, step by step/,/^## Starting/p' docs/operations.md | sed -n 's/^    //p')
for try in 1 2; do
    printed=$(timeout 120 bash examples/run-a-site.sh 7500)
    ended=$?
    if [ "$ended" -eq 0 ] && [ "$printed" = "$page" ]; then
        echo "a site, step by step: as the page on operations says"
        exit 0
    fi
done
echo "a site, step by step: status $ended, and not what the page on operations says:"
diff <(echo "$page") <(echo "$printed")
exit 1
