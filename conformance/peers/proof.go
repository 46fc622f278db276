// Proof checks proofs that travel (C2SP tlog-proof) over golang.org/x/mod's sumdb/tlog and sumdb/note:
//
//	proof VKEY [ENTRYFILE PROOFFILE]..
//
// It opens the note of each proof under a log's key, checks that the entry is at the proof's index, and prints a line:
// `SIZE INDEX`, or `refused` and why. It is a peer for tests/proofs, and not for use: it counts no cosignatures, and is
// less strict about the lines before the note.
package main

import (
	"encoding/base64"
	"fmt"
	"log"
	"os"
	"strconv"
	"strings"

	"golang.org/x/mod/sumdb/note"
	"golang.org/x/mod/sumdb/tlog"
)

// read returns the index, the hashes and the note of a proof.
func read(proof string) (index int64, hashes tlog.RecordProof, signed string, err error) {
	front, signed, _ := strings.Cut(proof, "\n\n")
	for i, line := range strings.Split(front, "\n") {
		switch {
		case i == 0 || strings.HasPrefix(line, "extra "):
		case strings.HasPrefix(line, "index "):
			index, err = strconv.ParseInt(line[len("index "):], 10, 64)
		default:
			var hash tlog.Hash
			hash, err = tlog.ParseHash(line)
			hashes = append(hashes, hash)
		}
		if err != nil {
			return 0, nil, "", err
		}
	}
	return index, hashes, signed, nil
}

// check returns the size of the log and the index at which the entry is.
func check(keys note.Verifiers, entry []byte, proof string) (size, index int64, err error) {
	index, hashes, signed, err := read(proof)
	if err != nil {
		return 0, 0, err
	}
	opened, err := note.Open([]byte(signed), keys)
	if err != nil {
		return 0, 0, err
	}
	lines := strings.Split(opened.Text, "\n")
	if len(lines) < 4 || lines[0] != opened.Sigs[0].Name {
		return 0, 0, fmt.Errorf("not a checkpoint of the log")
	}
	if size, err = strconv.ParseInt(lines[1], 10, 64); err != nil {
		return 0, 0, err
	}
	root, err := base64.StdEncoding.DecodeString(lines[2])
	if err != nil || len(root) != tlog.HashSize {
		return 0, 0, fmt.Errorf("not a root")
	}
	return size, index, tlog.CheckRecord(hashes, size, tlog.Hash(*(*[tlog.HashSize]byte)(root)), index, tlog.RecordHash(entry))
}

func main() {
	if len(os.Args) < 2 || len(os.Args)%2 != 0 {
		log.Fatal("usage: proof VKEY [ENTRYFILE PROOFFILE]..")
	}
	key, err := note.NewVerifier(os.Args[1])
	if err != nil {
		log.Fatal(err)
	}
	for i := 2; i < len(os.Args); i += 2 {
		entry, err := os.ReadFile(os.Args[i])
		if err != nil {
			log.Fatal(err)
		}
		proof, err := os.ReadFile(os.Args[i+1])
		if err != nil {
			log.Fatal(err)
		}
		if size, index, err := check(note.VerifierList(key), entry, string(proof)); err != nil {
			fmt.Println("refused:", err)
		} else {
			fmt.Println(size, index)
		}
	}
}
