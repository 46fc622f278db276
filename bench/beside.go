// Beside: what golang.org/x/mod/sumdb/tlog takes for what `tlog` does with the lines of standard input.
package main

import (
	"bufio"
	"fmt"
	"os"
	"strconv"

	"golang.org/x/mod/sumdb/tlog"
)

type store []tlog.Hash

func (s store) ReadHashes(indexes []int64) ([]tlog.Hash, error) {
	out := make([]tlog.Hash, len(indexes))
	for i, at := range indexes {
		out[i] = s[at]
	}
	return out, nil
}

func check(err error) {
	if err != nil {
		panic(err)
	}
}

func number(at int) int64 {
	n, err := strconv.ParseInt(os.Args[at], 10, 64)
	check(err)
	return n
}

func main() {
	var hashes store
	var size int64
	in := bufio.NewReaderSize(os.Stdin, 1<<20)
	lines := bufio.NewScanner(in)
	lines.Buffer(make([]byte, 0, 1<<17), 1<<17)
	for lines.Scan() {
		more, err := tlog.StoredHashes(size, lines.Bytes(), hashes)
		check(err)
		hashes = append(hashes, more...)
		size++
	}
	check(lines.Err())
	root, err := tlog.TreeHash(size, hashes)
	check(err)
	out := bufio.NewWriter(os.Stdout)
	defer out.Flush()
	switch os.Args[1] {
	case "head":
		fmt.Fprintf(out, "%s\n%d\n%s\n", "example.com/log", size, root)
	case "build":
		for _, tile := range tlog.NewTiles(8, 0, size) {
			data, err := tlog.ReadTileData(tile, hashes)
			check(err)
			fmt.Fprintln(out, tile.Path(), len(data))
		}
	case "inclusion":
		proof, err := tlog.ProveRecord(size, number(2), hashes)
		check(err)
		for _, hash := range proof {
			fmt.Fprintln(out, hash)
		}
	case "consistency":
		proof, err := tlog.ProveTree(size, number(2), hashes)
		check(err)
		for _, hash := range proof {
			fmt.Fprintln(out, hash)
		}
	}
}
