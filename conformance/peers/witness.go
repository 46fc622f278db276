// Witness cosigns the checkpoints of one log, over golang.org/x/mod's sumdb/tlog and sumdb/note:
//
//	witness VKEY KEYFILE
//
// VKEY is the log's verifier key, KEYFILE has the witness's private key. It is a peer for tests/conformance, and not for
// use: nothing survives a restart.
package main

import (
	"crypto/ed25519"
	"encoding/base64"
	"encoding/binary"
	"encoding/hex"
	"errors"
	"fmt"
	"io"
	"log"
	"net"
	"net/http"
	"os"
	"strconv"
	"strings"
	"sync"
	"time"

	"golang.org/x/mod/sumdb/note"
	"golang.org/x/mod/sumdb/tlog"
)

// A cosigner signs what a witness signs.
type cosigner struct {
	name string
	hash uint32
	key  ed25519.PrivateKey
}

func (c *cosigner) Name() string    { return c.name }
func (c *cosigner) KeyHash() uint32 { return c.hash }

func (c *cosigner) Sign(text []byte) ([]byte, error) {
	now := time.Now().Unix()
	message := fmt.Sprintf("cosignature/v1\ntime %d\n%s", now, text)
	out := binary.BigEndian.AppendUint64(nil, uint64(now))
	return append(out, ed25519.Sign(c.key, []byte(message))...), nil
}

func readCosigner(text string) (*cosigner, error) {
	words := strings.SplitN(strings.TrimSpace(text), "+", 5)
	if len(words) != 5 {
		return nil, errors.New("not a private key")
	}
	id, err := hex.DecodeString(words[3])
	if err != nil {
		return nil, err
	}
	data, err := base64.StdEncoding.DecodeString(words[4])
	if err != nil || len(id) != 4 || len(data) != 33 || data[0] != 4 {
		return nil, errors.New("not the private key of a witness")
	}
	return &cosigner{words[2], binary.BigEndian.Uint32(id), ed25519.NewKeyFromSeed(data[1:])}, nil
}

// A witness has the last checkpoint that it cosigned.
type witness struct {
	mu     sync.Mutex
	log    note.Verifier
	signer *cosigner
	size   int64
	root   tlog.Hash
}

// A refusal is the status of an answer.
type refusal int

func (r refusal) Error() string { return http.StatusText(int(r)) }

const (
	malformed = refusal(http.StatusBadRequest)
	untrusted = refusal(http.StatusForbidden)
	unknown   = refusal(http.StatusNotFound)
	conflict  = refusal(http.StatusConflict)
	unproved  = refusal(http.StatusUnprocessableEntity)
)

// A request is what is posted to add-checkpoint.
type request struct {
	old   int64
	proof tlog.TreeProof
	note  []byte
}

func readRequest(body []byte) (*request, error) {
	head, signed, ok := strings.Cut(string(body), "\n\n")
	lines := strings.Split(head, "\n")
	number, isOld := cutPrefix(lines[0], "old ")
	if !ok || !isOld || len(lines) > 64 {
		return nil, malformed
	}
	old, err := strconv.ParseInt(number, 10, 64)
	if err != nil || old < 0 {
		return nil, malformed
	}
	r := &request{old: old, note: []byte(signed)}
	for _, line := range lines[1:] {
		hash, err := tlog.ParseHash(line)
		if err != nil {
			return nil, malformed
		}
		r.proof = append(r.proof, hash)
	}
	return r, nil
}

func cutPrefix(s, prefix string) (string, bool) {
	return strings.TrimPrefix(s, prefix), strings.HasPrefix(s, prefix)
}

// readCheckpoint returns the origin, size and root of a note's text.
func readCheckpoint(text string) (string, tlog.Tree, error) {
	lines := strings.SplitN(text, "\n", 4)
	if len(lines) < 4 {
		return "", tlog.Tree{}, malformed
	}
	size, err := strconv.ParseInt(lines[1], 10, 64)
	if err != nil || size < 0 {
		return "", tlog.Tree{}, malformed
	}
	root, err := tlog.ParseHash(lines[2])
	if err != nil {
		return "", tlog.Tree{}, malformed
	}
	return lines[0], tlog.Tree{N: size, Hash: root}, nil
}

// add cosigns a checkpoint, and returns the signature line.
func (w *witness) add(body []byte) ([]byte, error) {
	r, err := readRequest(body)
	if err != nil {
		return nil, err
	}
	if origin, _, _ := strings.Cut(string(r.note), "\n"); origin != w.log.Name() {
		return nil, unknown
	}
	n, err := note.Open(r.note, note.VerifierList(w.log))
	if err != nil {
		return nil, untrusted
	}
	_, tree, err := readCheckpoint(n.Text)
	if err != nil {
		return nil, err
	}
	w.mu.Lock()
	defer w.mu.Unlock()
	if err := w.check(r, tree); err != nil {
		return nil, err
	}
	signed, err := note.Sign(&note.Note{Text: n.Text}, w.signer)
	if err != nil {
		return nil, err
	}
	w.size, w.root = tree.N, tree.Hash
	return signed[len(n.Text)+1:], nil
}

// check reports why a checkpoint isn't cosigned.
func (w *witness) check(r *request, tree tlog.Tree) error {
	switch {
	case r.old > tree.N:
		return malformed
	case r.old != w.size:
		return conflict
	case r.old == tree.N && w.size > 0 && tree.Hash != w.root:
		return conflict
	case r.old == 0:
		return nil
	}
	if tlog.CheckTree(r.proof, tree.N, tree.Hash, r.old, w.root) != nil {
		return unproved
	}
	return nil
}

func (w *witness) ServeHTTP(out http.ResponseWriter, in *http.Request) {
	body, err := io.ReadAll(http.MaxBytesReader(out, in.Body, 1<<20))
	if err != nil {
		http.Error(out, err.Error(), http.StatusBadRequest)
		return
	}
	line, err := w.add(body)
	var why refusal
	switch {
	case err == nil:
		out.Write(line)
	case err == conflict:
		w.mu.Lock()
		size := w.size
		w.mu.Unlock()
		out.Header().Set("Content-Type", "text/x.tlog.size")
		out.WriteHeader(http.StatusConflict)
		fmt.Fprintln(out, size)
	case errors.As(err, &why):
		http.Error(out, err.Error(), int(why))
	default:
		http.Error(out, err.Error(), http.StatusInternalServerError)
	}
}

func main() {
	verifier, err := note.NewVerifier(os.Args[1])
	check(err)
	key, err := os.ReadFile(os.Args[2])
	check(err)
	signer, err := readCosigner(string(key))
	check(err)
	http.Handle("/add-checkpoint", &witness{log: verifier, signer: signer})
	listener, err := net.Listen("tcp", "127.0.0.1:0")
	check(err)
	fmt.Fprintln(os.Stderr, "listening", listener.Addr())
	check(http.Serve(listener, nil))
}

func check(err error) {
	if err != nil {
		log.Fatal(err)
	}
}
