// Applies merge patches with evanphx's json-patch, for tools/compare/merge_patches.py.
//
// A line of the input is a document, a tab and a merge patch. A line of the output is the new document, or `-` for an error.
package main

import (
	"bufio"
	"fmt"
	"os"
	"strings"

	jsonpatch "github.com/evanphx/json-patch/v5"
)

func main() {
	lines := bufio.NewScanner(os.Stdin)
	lines.Buffer(nil, 1<<20)
	out := bufio.NewWriter(os.Stdout)
	defer out.Flush()
	for lines.Scan() {
		document, patch, _ := strings.Cut(lines.Text(), "\t")
		made, err := jsonpatch.MergePatch([]byte(document), []byte(patch))
		if err != nil {
			made = []byte("-")
		}
		fmt.Fprintln(out, string(made))
	}
}
