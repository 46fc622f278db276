// Log keeps a log in a folder, over golang.org/x/mod's sumdb/tlog and sumdb/note, and serves the folder by http.FileServer:
//
//	log FOLDER KEYFILE < entries
//
// The lines of standard input are its first entries, and what is posted to /add is appended. It is a peer for
// tests/conformance, and not for use: nothing survives a restart.
package main

import (
	"bufio"
	"encoding/binary"
	"fmt"
	"io"
	"log"
	"net"
	"net/http"
	"os"
	"path/filepath"
	"strings"
	"sync"

	"golang.org/x/mod/sumdb/note"
	"golang.org/x/mod/sumdb/tlog"
)

const height = 8

// A tree is the log's entries and the hashes that are stored of them.
type tree struct {
	mu      sync.Mutex
	folder  string
	signer  note.Signer
	entries [][]byte
	hashes  []tlog.Hash
}

func (t *tree) ReadHashes(indexes []int64) ([]tlog.Hash, error) {
	out := make([]tlog.Hash, len(indexes))
	for i, at := range indexes {
		out[i] = t.hashes[at]
	}
	return out, nil
}

// add appends entries, publishes the log, and returns the index of the first.
func (t *tree) add(entries ...[]byte) (int64, error) {
	t.mu.Lock()
	defer t.mu.Unlock()
	old := int64(len(t.entries))
	for _, entry := range entries {
		hashes, err := tlog.StoredHashes(int64(len(t.entries)), entry, t)
		if err != nil {
			return 0, err
		}
		t.hashes = append(t.hashes, hashes...)
		t.entries = append(t.entries, entry)
	}
	return old, t.publish(old)
}

// publish writes the tiles and bundles of a log that had this many entries, and then the checkpoint.
func (t *tree) publish(old int64) error {
	for _, tile := range tlog.NewTiles(height, old, int64(len(t.entries))) {
		data, err := tlog.ReadTileData(tile, t)
		if err != nil {
			return err
		}
		if err := t.write(strings.Replace(tile.Path(), "tile/8/", "tile/", 1), data); err != nil {
			return err
		}
		if tile.L > 0 {
			continue
		}
		start := tile.N << height
		path := strings.Replace(tile.Path(), "tile/8/0/", "tile/entries/", 1)
		if err := t.write(path, bundle(t.entries[start:start+int64(tile.W)])); err != nil {
			return err
		}
	}
	return t.sign()
}

func bundle(entries [][]byte) []byte {
	var out []byte
	for _, entry := range entries {
		out = binary.BigEndian.AppendUint16(out, uint16(len(entry)))
		out = append(out, entry...)
	}
	return out
}

func (t *tree) sign() error {
	size := int64(len(t.entries))
	root, err := tlog.TreeHash(size, t)
	if err != nil {
		return err
	}
	text := fmt.Sprintf("%s\n%d\n%s\n", t.signer.Name(), size, root)
	signed, err := note.Sign(&note.Note{Text: text}, t.signer)
	if err != nil {
		return err
	}
	return t.write("checkpoint", signed)
}

// write replaces a file of the folder.
func (t *tree) write(path string, data []byte) error {
	path = filepath.Join(t.folder, path)
	if err := os.MkdirAll(filepath.Dir(path), 0o755); err != nil {
		return err
	}
	if err := os.WriteFile(path+".new", data, 0o644); err != nil {
		return err
	}
	return os.Rename(path+".new", path)
}

func (t *tree) handleAdd(w http.ResponseWriter, r *http.Request) {
	entry, err := io.ReadAll(http.MaxBytesReader(w, r.Body, 65535))
	if err != nil {
		http.Error(w, err.Error(), http.StatusBadRequest)
		return
	}
	index, err := t.add(entry)
	if err != nil {
		http.Error(w, err.Error(), http.StatusInternalServerError)
		return
	}
	fmt.Fprintln(w, index)
}

func main() {
	key, err := os.ReadFile(os.Args[2])
	check(err)
	signer, err := note.NewSigner(strings.TrimSpace(string(key)))
	check(err)
	t := &tree{folder: os.Args[1], signer: signer}
	var entries [][]byte
	lines := bufio.NewScanner(os.Stdin)
	for lines.Scan() {
		entries = append(entries, []byte(lines.Text()))
	}
	_, err = t.add(entries...)
	check(err)
	http.HandleFunc("/add", t.handleAdd)
	http.Handle("/", http.FileServer(http.Dir(t.folder)))
	listener, err := net.Listen("tcp", "127.0.0.1:0")
	check(err)
	fmt.Fprintln(os.Stderr, "listening", listener.Addr())
	check(http.Serve(listener, nil))
}

func check(err error) {
	if err != nil {
		log.Fatal(err)
	}
}
