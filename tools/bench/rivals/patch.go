// The package json-patch of evanphx, for rivals.py: go_patch evanphx JOB FILE ROUNDS PATCH_FILE
//
// A job is `patch`, or `merge` for a merge patch. With no rounds it is done once, and writes the document. Else it writes the mean nanoseconds of all rounds, so
// that the time of collecting garbage counts, as that of freeing memory does in other languages. There is no round after a
// second.
package main

import (
	"fmt"
	"os"
	"strconv"
	"syscall"
	"unsafe"

	jsonpatch "github.com/evanphx/json-patch/v5"
)

// now returns the processor time of this process in nanoseconds.
func now() int64 {
	var time syscall.Timespec
	const process = 2
	_, _, failed := syscall.Syscall(syscall.SYS_CLOCK_GETTIME, process, uintptr(unsafe.Pointer(&time)), 0)
	if failed != 0 {
		check(failed)
	}
	return time.Nano()
}

func check(err error) {
	if err != nil {
		fmt.Fprintln(os.Stderr, "rivals:", err)
		os.Exit(1)
	}
}

// patched applies a patch (RFC 6902).
func patched(text, words []byte) []byte {
	patch, err := jsonpatch.DecodePatch(words)
	check(err)
	result, err := patch.Apply(text)
	check(err)
	return result
}

// merged applies a merge patch (RFC 7396).
func merged(text, words []byte) []byte {
	result, err := jsonpatch.MergePatch(text, words)
	check(err)
	return result
}

func main() {
	text, err := os.ReadFile(os.Args[3])
	check(err)
	words, err := os.ReadFile(os.Args[5])
	check(err)
	rounds, err := strconv.Atoi(os.Args[4])
	check(err)
	job := patched
	if os.Args[2] == "merge" {
		job = merged
	}
	if rounds == 0 {
		os.Stdout.Write(job(text, words))
		return
	}
	const second = 1_000_000_000
	start, done := now(), 0
	for done < rounds && (done == 0 || now()-start < second) {
		job(text, words)
		done++
	}
	fmt.Println((now() - start) / int64(done))
}
