package commitgraph

import (
	"bytes"
	"context"
	"crypto/sha1"
	"encoding/binary"
	"encoding/hex"
	"errors"
	"math"
	"os"
	"os/exec"
	"path/filepath"
	"reflect"
	"sort"
	"strconv"
	"strings"
	"syscall"
	"testing"
)

type repository struct {
	*testing.T
	at, info string
	ids      []string
}

func (r *repository) git(words ...string) string {
	command := exec.Command("git", append([]string{"-C", r.at}, words...)...)
	command.Env = append(os.Environ(), "GIT_CONFIG_GLOBAL=/dev/null", "GIT_CONFIG_NOSYSTEM=1")
	for _, who := range []string{"AUTHOR", "COMMITTER"} {
		command.Env = append(command.Env, "GIT_"+who+"_NAME=a", "GIT_"+who+"_EMAIL=a@b", "GIT_"+who+"_DATE=1000000000 +0000")
	}
	said, err := command.Output()
	if err != nil {
		r.Fatal(words, err)
	}
	return strings.TrimSpace(string(said))
}

// made is a repository with seven commits and a merge of three of them.
func made(t *testing.T) *repository {
	at := t.TempDir()
	r := &repository{T: t, at: at, info: filepath.Join(at, ".git/objects/info")}
	r.git("init", "-q")
	tree := r.git("write-tree")
	for number := 0; number < 8; number++ {
		words := []string{"commit-tree", tree, "-m", strconv.Itoa(number)}
		for _, parent := range map[int][]int{0: {}, 7: {4, 5, 6}}[number] {
			words = append(words, "-p", r.ids[parent])
		}
		if number > 0 && number < 7 {
			words = append(words, "-p", r.ids[(number-1)/2])
		}
		r.ids = append(r.ids, r.git(words...))
	}
	r.git("update-ref", "refs/heads/main", r.ids[7])
	return r
}

func (r *repository) name(graph *Graph, position uint32) string {
	id, err := graph.ID(position)
	if err != nil {
		r.Fatal(err)
	}
	return hex.EncodeToString(id)
}

func (r *repository) names(graph *Graph, positions []uint32) string {
	names := []string{}
	for _, position := range positions {
		names = append(names, r.name(graph, position))
	}
	return strings.Join(names, " ")
}

func sorted(names string) string {
	fields := strings.Fields(names)
	sort.Strings(fields)
	return strings.Join(fields, " ")
}

func (r *repository) same(what, got, wanted string) {
	r.Helper()
	if got != wanted {
		r.Errorf("%s: %q in place of %q", what, got, wanted)
	}
}

// many compares what calls for many answer with what those for one do.
func (r *repository) many(graph *Graph) {
	positions, pairs := []uint32{}, [][2]uint32{}
	for one := uint32(0); one < graph.Len(); one++ {
		positions = append(positions, one)
		for other := uint32(0); other < graph.Len(); other++ {
			pairs = append(pairs, [2]uint32{one, other})
		}
	}
	ids, err := graph.IDs(positions)
	if err != nil {
		r.Fatal(err)
	}
	for position, id := range ids {
		r.same("id", hex.EncodeToString(id), r.name(graph, uint32(position)))
	}
	found := graph.LookupAll(append(append([][]byte{}, ids...), make([]byte, 32), nil))
	if !reflect.DeepEqual(found, append(append([]uint32{}, positions...), Nowhere, Nowhere)) {
		r.Error(found)
	}
	all, err := graph.CompareAll(pairs)
	if err != nil {
		r.Fatal(err)
	}
	for number, pair := range pairs {
		if one, _ := graph.Compare(pair[0], pair[1]); !reflect.DeepEqual(all[number], one) {
			r.Error(pair, all[number], one)
		}
	}
	_, err = graph.IDs([]uint32{0, graph.Len()})
	r.refused(err, 4, 1, 0)
	if !strings.Contains(err.Error(), ": number 1 of those asked") {
		r.Error(err)
	}
	_, err = graph.CompareAll([][2]uint32{{0, 0}, {0, graph.Len()}})
	r.refused(err, 4, 1, 0)
	if len(graph.LookupAll(nil)) != 0 {
		r.Error("ids of none")
	}
}

func (r *repository) refused(err error, code uint32, number, other uint64) {
	r.Helper()
	var told *Error
	if !errors.As(err, &told) || told.Code != code || told.Number != number || told.Other != other {
		r.Error(err, code, number, other)
	}
}

// says compares what an error says with the file that it has to name, the id of a commit, if it has to name one, and what to type.
func (r *repository) says(err error, file, commit string) {
	r.Helper()
	words := []string{file, "git commit-graph write --reachable"}
	if commit != "" {
		words = append(words, " is "+commit+"; ")
	}
	for _, word := range words {
		if err == nil || !strings.Contains(err.Error(), word) {
			r.Errorf("%v does not say %q", err, word)
		}
	}
}

// misnumbered is a file with another generation number of the commit with an id, and the checksum of its bytes.
func (r *repository) misnumbered(file []byte, id []byte) []byte {
	graph, err := OpenLayers([]Layer{{Bytes: file}}, false)
	if err != nil {
		r.Fatal(err)
	}
	defer graph.Close()
	changed := append([]byte{}, file[:len(file)-sha1.Size]...)
	entry := changed[bytes.Index(changed, []byte("CDAT")):]
	record := binary.BigEndian.Uint64(entry[4:]) + 36*uint64(graph.Lookup(id))
	changed[record+31] ^= 64
	checksum := sha1.Sum(changed)
	return append(changed, checksum[:]...)
}

// commits are what Git says of the commits of its branch.
func (r *repository) commits() []NewCommit {
	commits := []NewCommit{}
	for _, line := range strings.Split(r.git("log", "--format=%H %T %ct %P", "main"), "\n") {
		words := strings.Fields(line)
		ids := [][]byte{}
		for _, word := range append(words[:2:2], words[3:]...) {
			id, err := hex.DecodeString(word)
			if err != nil {
				r.Fatal(err)
			}
			ids = append(ids, id)
		}
		time, _ := strconv.ParseUint(words[2], 10, 64)
		commits = append(commits, NewCommit{ids[0], ids[1], ids[2:], time})
	}
	return commits
}

// asked compares what a graph answers of each commit, and of each two, with what Git says.
func (r *repository) asked(path string) {
	graph, err := Open(path, true)
	if err != nil {
		r.Fatal(err)
	}
	defer graph.Close()
	r.many(graph)
	all := strings.Fields(r.git("rev-list", "main"))
	r.same("commits", strconv.Itoa(int(graph.Len())), strconv.Itoa(len(all)))
	for _, commit := range all {
		id, _ := hex.DecodeString(commit)
		position := graph.Lookup(id)
		r.same("id", r.name(graph, position), commit)
		parents, err := graph.Parents(position)
		r.same("parents", r.names(graph, parents), r.git("log", "-1", "--format=%P", commit))
		tree, _ := graph.Tree(position)
		r.same("tree", hex.EncodeToString(tree), r.git("log", "-1", "--format=%T", commit))
		record, _ := graph.Record(position)
		if err != nil || record.Time != 1000000000 {
			r.Error(commit, err, record)
		}
		for other := uint32(0); other < graph.Len(); other++ {
			bases := r.git("merge-base", "--all", commit, r.name(graph, other))
			found, _ := graph.Compare(position, other)
			r.same("bases", sorted(r.names(graph, found.Bases)), sorted(bases))
			leads, _ := graph.IsAncestor(position, other)
			if leads != strings.Contains(bases, commit) {
				r.Error(commit, other, leads)
			}
		}
	}
}

func TestAFile(t *testing.T) {
	r := made(t)
	r.git("commit-graph", "write", "--reachable")
	r.asked(r.info)
	r.asked(filepath.Join(r.info, "commit-graph"))
}

func TestAChain(t *testing.T) {
	r := made(t)
	for _, commit := range []string{r.ids[4], r.ids[7]} {
		r.git("update-ref", "refs/heads/main", commit)
		r.git("commit-graph", "write", "--reachable", "--split=no-merge")
	}
	r.asked(r.info)
	r.asked(filepath.Join(r.info, "commit-graphs"))
}

// What stands at a path is opened as the programs open it; and what is told where nothing is.
func TestPaths(t *testing.T) {
	r := made(t)
	for _, commit := range []string{r.ids[4], r.ids[7]} {
		r.git("update-ref", "refs/heads/main", commit)
		r.git("commit-graph", "write", "--reachable", "--split=no-merge")
	}
	chain, file := filepath.Join(r.info, "commit-graphs"), filepath.Join(r.info, "commit-graph")
	named := filepath.Join(chain, "commit-graph-chain")
	lines, err := os.ReadFile(named)
	if err != nil {
		t.Fatal(err)
	}
	lowest := filepath.Join(chain, "graph-"+strings.Fields(string(lines))[0]+".graph")
	low, err := os.ReadFile(lowest)
	if err != nil {
		t.Fatal(err)
	}
	write := func(path string, bytes []byte) {
		if err := os.WriteFile(path, bytes, 0o644); err != nil {
			t.Fatal(err)
		}
	}
	length := func(path string) uint32 {
		graph, err := Open(path, false)
		if err != nil {
			t.Fatal(err)
		}
		defer graph.Close()
		return graph.Len()
	}
	whole := length(r.info)
	write(file, []byte("CGPH"))
	if length(r.info) != whole {
		t.Error("a refused file stands before the chain")
	}
	write(file, low)
	if length(r.info) >= whole {
		t.Error("the chain stands before the file")
	}
	write(file, append(low[:len(low)-1:len(low)-1], low[len(low)-1]^1))
	_, err = Open(r.info, false)
	r.refused(err, 341, 0, 0)
	r.says(err, file+": ", "")
	write(named, append(lines, "\xff\n"...))
	_, err = Open(chain, false)
	r.refused(err, 24, 0, 0)
	r.says(err, named+": a line of the chain file is not UTF-8: line 2, counted from 0", "")
	write(named, []byte(strings.Repeat(strings.Fields(string(lines))[0]+"\n", 300)))
	_, err = Open(chain, false)
	r.refused(err, 301, 0, 0)
	r.says(err, named+": ", "")
	write(named, append(lines, "\xff\n"...))
	below := filepath.Join(r.at, "\xff")
	if err := os.Rename(chain, below); err != nil {
		t.Fatal(err)
	}
	_, err = Open(below, false)
	r.refused(err, 24, 0, 0)
	write(filepath.Join(below, "commit-graph-chain"), lines)
	if length(below) != whole {
		t.Error("a folder whose path is no text")
	}
	misnamed := filepath.Join(below, "graph-"+strings.Repeat("0", 40)+".graph")
	write(misnamed, low)
	_, err = Open(misnamed, false)
	r.refused(err, 342, 0, 0)
	write(file, []byte("CGPH"))
	_, err = Open(r.info, false)
	r.refused(err, 101, 0, 0)
	os.Remove(filepath.Join(below, filepath.Base(lowest)))
	var failed *os.PathError
	if _, err := Open(below, false); !errors.As(err, &failed) || filepath.Base(failed.Path) != filepath.Base(lowest) {
		t.Error(err)
	}
}

// TestNeither has neither refusal of an info folder hide the other; one of what is missing does not count.
func TestNeither(t *testing.T) {
	r := made(t)
	file, chain := filepath.Join(r.info, "commit-graph"), filepath.Join(r.info, "commit-graphs", "commit-graph-chain")
	for _, err := range []error{os.Mkdir(filepath.Dir(chain), 0o755), os.WriteFile(file, []byte("CGPH"), 0o644)} {
		if err != nil {
			t.Fatal(err)
		}
	}
	_, alone := Open(r.info, false)
	r.refused(alone, 101, 0, 0)
	if err := os.WriteFile(chain, nil, 0o644); err != nil {
		t.Fatal(err)
	}
	_, err := Open(r.info, false)
	r.refused(err, 201, 0, 0)
	var both *NeitherError
	if !errors.As(err, &both) || both.File.Error() != alone.Error() {
		t.Fatal(err)
	}
	r.same("both", err.Error(), "neither the file nor the chain was opened: "+file+": the file has fewer than 1100 bytes: "+
		"often it is truncated; "+chain+": the chain file names no layer; what to do: "+both.Advice())
	r.says(err, file, "")
	loop := func(path string) {
		os.Remove(path)
		if err := os.Symlink(path, path); err != nil {
			t.Fatal(err)
		}
	}
	loop(chain)
	_, err = Open(r.info, false)
	r.refused(err, 101, 0, 0)
	r.says(err, "; stat "+chain+": too many levels of symbolic links; what to do: remove ", "")
	loop(file)
	_, err = Open(r.info, false)
	if !errors.Is(err, syscall.ELOOP) || !strings.Contains(err.Error(), "check permissions") {
		t.Error(err)
	}
	r.says(err, "stat "+file+": ", "")
	os.Remove(file)
	_, err = Open(r.info, false)
	if errors.As(err, &both) {
		t.Error(err)
	}
}

// The layer and the commit of which a check speaks are told, of a file by its bytes, and of a chain by its path.
func TestFaults(t *testing.T) {
	r := made(t)
	r.git("commit-graph", "write", "--reachable")
	file := filepath.Join(r.info, "commit-graph")
	data, err := os.ReadFile(file)
	if err != nil {
		t.Fatal(err)
	}
	tip, _ := hex.DecodeString(r.ids[7])
	_, err = OpenLayers([]Layer{{r.misnumbered(data, tip), "a file"}}, false)
	r.refused(err, 308, 0, 0)
	r.says(err, "a file: ", r.ids[7])
	os.Remove(file)
	for _, commit := range []string{r.ids[4], r.ids[7]} {
		r.git("update-ref", "refs/heads/main", commit)
		r.git("commit-graph", "write", "--reachable", "--split=no-merge")
	}
	chain := filepath.Join(r.info, "commit-graphs")
	named := filepath.Join(chain, "commit-graph-chain")
	lines, err := os.ReadFile(named)
	if err != nil {
		t.Fatal(err)
	}
	names := strings.Fields(string(lines))
	upper := filepath.Join(chain, "graph-"+names[1]+".graph")
	if data, err = os.ReadFile(upper); err != nil {
		t.Fatal(err)
	}
	// The parents of its commits stand below it, so that it is changed where it stands.
	changed := append([]byte{}, data[:len(data)-sha1.Size]...)
	record := binary.BigEndian.Uint64(changed[bytes.Index(changed, []byte("CDAT"))+4:])
	changed[record+31] ^= 64
	checksum := sha1.Sum(changed)
	renamed := filepath.Join(chain, "graph-"+hex.EncodeToString(checksum[:])+".graph")
	if err := os.WriteFile(renamed, append(changed, checksum[:]...), 0o644); err != nil {
		t.Fatal(err)
	}
	os.Remove(named)
	if err := os.WriteFile(named, []byte(names[0]+"\n"+hex.EncodeToString(checksum[:])+"\n"), 0o644); err != nil {
		t.Fatal(err)
	}
	_, err = Open(r.info, false)
	var told *Error
	if !errors.As(err, &told) || told.Layer != 1 || told.Code != 308 {
		t.Fatal(err)
	}
	r.says(err, renamed+": ", hex.EncodeToString(told.Commit))
	if r.git("cat-file", "-t", hex.EncodeToString(told.Commit)) != "commit" {
		t.Error(err)
	}
	if err := os.WriteFile(named, nil, 0o644); err != nil {
		t.Fatal(err)
	}
	_, err = Open(r.info, false)
	r.refused(err, 201, 0, 0)
	r.says(err, named+": ", "")
}

func TestWriting(t *testing.T) {
	r := made(t)
	r.git("commit-graph", "write", "--reachable")
	told := r.commits()
	file := filepath.Join(r.info, "commit-graph")
	alone, err := WriteFile(told)
	r.is(file, alone, err)
	os.Remove(file)
	for _, commit := range []string{r.ids[4], r.ids[7]} {
		r.git("update-ref", "refs/heads/main", commit)
		r.git("commit-graph", "write", "--reachable", "--split=no-merge")
	}
	folder := filepath.Join(r.info, "commit-graphs")
	names, err := os.ReadFile(filepath.Join(folder, "commit-graph-chain"))
	if err != nil {
		t.Fatal(err)
	}
	layers := []string{}
	for _, name := range strings.Fields(string(names)) {
		layers = append(layers, filepath.Join(folder, "graph-"+name+".graph"))
	}
	below, err := Open(layers[0], false)
	if err != nil {
		t.Fatal(err)
	}
	own := []NewCommit{}
	for _, commit := range told {
		if below.Lookup(commit.ID) == Nowhere {
			own = append(own, commit)
		}
	}
	layer, err := below.WriteLayer(own)
	r.is(layers[1], layer, err)
	_, err = below.WriteLayer(told[len(told)-1:])
	r.refused(err, 706, 0, 0)
	below.Close()
	_, err = below.WriteLayer(own)
	r.refused(err, 2, 0, 0)
	_, err = WriteFile(nil)
	r.refused(err, 709, 0, 0)
	_, err = WriteFile(append(told[:1:1], told[0]))
	r.refused(err, 705, 1, 0)
	r.same("a commit twice", err.Error(),
		"a commit is handed in twice: commit 1 of those that were handed in, counted from 0; what to do: give each commit once")
	_, err = WriteFile([]NewCommit{{told[0].ID, told[0].Tree, [][]byte{{1}}, 0}})
	r.refused(err, 712, 0, 0)
}

// is compares bytes with those of a file that Git wrote.
func (r *repository) is(file string, bytes []byte, err error) {
	r.Helper()
	wanted, failed := os.ReadFile(file)
	if err != nil || failed != nil || string(bytes) != string(wanted) {
		r.Error(file, err, failed)
	}
}

// TestLimits has all answered within as many commits as there are, and stopped within none, and where a context is done.
func TestLimits(t *testing.T) {
	r := made(t)
	r.git("commit-graph", "write", "--reachable")
	done, end := context.WithCancel(context.Background())
	end()
	open, stop := context.WithCancel(context.Background())
	defer stop()
	graph, err := OpenWithin(open, r.info, true, 8)
	if err != nil {
		t.Fatal(err)
	}
	defer graph.Close()
	first, _ := hex.DecodeString(r.ids[0])
	last, _ := hex.DecodeString(r.ids[7])
	root, tip := graph.Lookup(first), graph.Lookup(last)
	whole, _ := graph.Compare(tip, root)
	for _, ctx := range []context.Context{context.Background(), open} {
		leads, err := graph.IsAncestorWithin(ctx, root, tip, 8)
		found, failed := graph.CompareWithin(ctx, 24, tip, root)
		if !leads || err != nil || failed != nil || !reflect.DeepEqual(found, whole) {
			t.Error(leads, err, found, failed)
		}
		_, err = graph.IsAncestorWithin(ctx, root, tip, 0)
		r.refused(err, 10, 0, 0)
		_, err = graph.CompareWithin(ctx, 0, tip, root)
		r.refused(err, 10, 0, 0)
		_, err = OpenWithin(ctx, r.info, true, 6)
		r.refused(err, 10, 0, 0)
	}
	_, opened := OpenWithin(done, r.info, true, 8)
	_, asked := graph.IsAncestorWithin(done, root, tip, 8)
	_, compared := graph.CompareWithin(done, 24, tip, root)
	if opened != context.Canceled || asked != context.Canceled || compared != context.Canceled {
		t.Error(opened, asked, compared)
	}
}

// TestGoroutines has one graph answer four goroutines what it answers one, while a context ends beside them.
func TestGoroutines(t *testing.T) {
	r := made(t)
	r.git("commit-graph", "write", "--reachable")
	graph, err := Open(r.info, true)
	if err != nil {
		t.Fatal(err)
	}
	defer graph.Close()
	answers := func() string {
		said := []string{}
		for one := uint32(0); one < graph.Len(); one++ {
			parents, _ := graph.Parents(one)
			said = append(said, r.names(graph, parents))
			for other := uint32(0); other < graph.Len(); other++ {
				leads, _ := graph.IsAncestor(one, other)
				found, _ := graph.Compare(one, other)
				said = append(said, strconv.FormatBool(leads), r.names(graph, found.Bases))
			}
		}
		return strings.Join(said, "\n")
	}
	alone, told := answers(), make(chan string)
	for number := 0; number < 4; number++ {
		go func() { told <- answers() }()
	}
	ctx, end := context.WithCancel(context.Background())
	go end()
	for ctx.Err() == nil {
		if _, err := graph.IsAncestorWithin(ctx, 0, graph.Len()-1, math.MaxUint64); err != nil && err != ctx.Err() {
			t.Error(err)
		}
	}
	for number := 0; number < 4; number++ {
		r.same("beside others", <-told, alone)
	}
}

func TestOtherVersion(t *testing.T) {
	if err := otherVersion(777); err == nil || !strings.HasPrefix(err.Error(), "libcommitgraph is of version 777, ") {
		t.Error(err)
	}
}

func TestRefusals(t *testing.T) {
	r := made(t)
	_, err := Open(r.info, false)
	if !errors.Is(err, os.ErrNotExist) {
		t.Error(err)
	}
	r.says(err, filepath.Join(r.info, "commit-graphs", "commit-graph-chain"), "")
	_, err = OpenLayers(nil, false)
	r.refused(err, 201, 0, 0)
	r.same("no layer", err.Error(), "no layer is handed in; what to do: hand in at least one")
	if _, err := Open("no/such/folder", false); !errors.Is(err, os.ErrNotExist) || !strings.Contains(err.Error(), "check the path") {
		t.Error(err)
	}
	r.git("commit-graph", "write", "--reachable")
	file := filepath.Join(r.info, "commit-graph")
	data, err := os.ReadFile(file)
	if err != nil {
		t.Fatal(err)
	}
	graph, err := Open(file, false)
	if err != nil {
		t.Fatal(err)
	}
	_, ofID := graph.ID(7)
	_, ofAncestor := graph.IsAncestor(7, 0)
	_, ofDescendant := graph.IsAncestor(0, 7)
	_, ofOther := graph.Compare(0, 1, 7)
	for _, err := range []error{ofID, ofAncestor, ofDescendant, ofOther} {
		if err == nil || err.Error() != "the graph has no such position: 7" {
			t.Error("a position past the end", err)
		}
	}
	if position := graph.Lookup(nil); position != Nowhere {
		t.Error(position)
	}
	again := &Graph{open: graph.open}
	again.Close()
	graph.Close()
	(&Graph{}).Close()
	_, ofID = graph.ID(0)
	_, ofRecord := graph.Record(0)
	for _, err := range []error{ofID, ofRecord} {
		var told *Error
		if !errors.As(err, &told) || told.Code != 2 {
			t.Error(err)
		}
	}
	changed := append([]byte{}, data...)
	changed[len(changed)-1] ^= 1
	for _, bad := range []struct {
		data []byte
		code uint32
	}{{data[:100], 101}, {data[:len(data)-1], 115}, {changed, 341}} {
		os.Remove(file)
		os.WriteFile(file, bad.data, 0o644)
		_, err := Open(file, false)
		var told *Error
		if !errors.As(err, &told) || told.Code != bad.code {
			t.Error(err)
		}
		if !strings.Contains(err.Error(), "remove the files that were opened (of a chain, its whole folder), and then run `git ") {
			t.Error(err)
		}
	}
}
