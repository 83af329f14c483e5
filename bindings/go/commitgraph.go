// Package commitgraph reads, checks and writes Git's commit-graph files by proved code.
//
// A graph is checked as it is opened. The text of an error names the file and the commit, and what to type; a NeitherError tells
// why neither the file nor the chain of a folder opens. LookupAll, IDs and CompareAll ask about many commits in one call.
// OpenWithin, IsAncestorWithin and CompareWithin stop when their context is done; of a check OpenWithin stops all but the reading
// and the digests of the files. WriteFile and WriteLayer make the bytes that Git writes of commits.
//
// It calls libcommitgraph, which pkg-config has to find as the package is built, and the system as a program starts. The calls are
// proved, this package is not: commitgraph_test.go compares its answers with what Git says. Any number of goroutines may ask one
// graph at a time; Close is called when none does.
package commitgraph

/*
#cgo pkg-config: commitgraph
#include <commitgraph.h>
#include <stdlib.h>

static cg_lent not_lent(void) { return CG_NOT_LENT; }
*/
import "C"

import (
	"context"
	"errors"
	"fmt"
	"io"
	"math"
	"os"
	"path/filepath"
	"runtime"
	"strings"
	"syscall"
	"unicode/utf8"
	"unsafe"
)

// Nowhere is no position.
const Nowhere = uint32(C.CG_NOWHERE)

// Graph is a commit-graph that its check has found right. Positions count from 0 over all layers. A Graph is used by its pointer:
// `go vet` tells of a copy. A copy is the same graph, and is closed with it.
type Graph struct {
	_    noCopy
	open *openGraph
}

// openGraph is what C has of a graph, until it is closed.
type openGraph struct {
	raw C.cg_graph
}

// noCopy lets `go vet` tell where a struct that holds it is copied, as it tells of a lock.
type noCopy struct{}

func (*noCopy) Lock()   {}
func (*noCopy) Unlock() {}

// graphOf is the graph of what C has opened, which is closed at last when nothing leads to it any more.
func graphOf(open *openGraph) *Graph {
	runtime.SetFinalizer(open, (*openGraph).close)
	return &Graph{open: open}
}

func (o *openGraph) close() {
	C.cg_close(&o.raw)
}

// raw is what C has of the graph, which is closed where none was opened.
func (g *Graph) raw() C.cg_graph {
	if g.open == nil {
		return C.cg_graph{}
	}
	return g.open.raw
}

// Error says why a graph is refused, or a question has no answer.
type Error struct {
	// Code is one of enum cg_code in commitgraph.h.
	Code uint32
	// Layer is the layer that is refused, or the line of the chain file, counted from 0.
	Layer uint64
	// Position is that of the commit that is refused, or the one that the graph does not have.
	Position uint32
	// Commit is the id of that commit, where it is known.
	Commit []byte
	// Path is that of the file that is refused, where it is known: of the layer, or the chain file.
	Path string
	// Number is that of the question that has no answer, or of the commit that is not written, and Other what commitgraph.h says of
	// that commit.
	Number, Other uint64
	// isNumbered is whether Number is that of a question of which a position is none.
	isNumbered bool
}

// Error says what is wrong, in which file and with which commit, and what to do.
func (e *Error) Error() string {
	return advised(e.happened(), e.Advice())
}

// happened says what is wrong, alone.
func (e *Error) happened() string {
	said := C.GoString(C.cg_strerror(C.uint32_t(e.Code)))
	if e.Path != "" {
		said = e.Path + ": " + said
	}
	switch {
	case e.isOfNoBytes():
		said = "no layer is handed in"
	case e.Code == C.CG_OPEN_CHAIN_NOT_TEXT:
		said += fmt.Sprintf(": line %d, counted from 0", e.Layer)
	case e.Code >= C.CG_WRITE_KIND && e.Code <= C.CG_WRITE_CYCLE || e.Code == C.CG_WRITE_NO_IDS:
		said += fmt.Sprintf(": commit %d of those that were handed in, counted from 0", e.Number)
	case e.isNumbered:
		said += fmt.Sprintf(": number %d of those asked, counted from 0", e.Number)
	case e.Code == C.CG_NO_SUCH_POSITION && e.Position > 0:
		said += fmt.Sprintf(": %d", e.Position)
	case len(e.Commit) > 0:
		said += fmt.Sprintf("; the commit at position %d is %x", e.Position, e.Commit)
	}
	return said
}

// Advice says what to do, with the commands to type, or is empty.
func (e *Error) Advice() string {
	if e.isOfNoBytes() {
		return "hand in at least one"
	}
	return C.GoString(C.cg_advice(C.uint32_t(e.Code)))
}

// isOfNoBytes says whether no layer was handed in, where another refusal with the same code names a chain file.
func (e *Error) isOfNoBytes() bool {
	return e.Code == C.CG_GRAPH_NO_FILES && e.Path == ""
}

// NeitherError says that of an info folder neither the file nor the chain was opened, and why each was not; neither is missing.
// errors.As and errors.Is look into Chain, and then into File.
type NeitherError struct {
	File, Chain error
}

// Error says what is wrong with both, and what to do.
func (e *NeitherError) Error() string {
	return advised("neither the file nor the chain was opened: "+alone(e.File)+"; "+alone(e.Chain), e.Advice())
}

// Advice says what to do, with the commands to type.
func (e *NeitherError) Advice() string {
	var file, chain *unread
	if errors.As(e.File, &file) && errors.As(e.Chain, &chain) {
		return chain.advice()
	}
	return C.GoString(C.cg_advice(C.CG_OPEN_CHAIN_NOT_TEXT))
}

// As finds what the target points to in one of both.
func (e *NeitherError) As(target any) bool {
	return errors.As(e.Chain, target) || errors.As(e.File, target)
}

// Is says whether one of both is the target.
func (e *NeitherError) Is(target error) bool {
	return errors.Is(e.Chain, target) || errors.Is(e.File, target)
}

// alone says what happened, without what to do.
func alone(err error) string {
	var told *Error
	var file *unread
	switch {
	case errors.As(err, &told):
		return told.happened()
	case errors.As(err, &file):
		return file.error.Error()
	}
	return err.Error()
}

// unread is what the system says of a file that was not read, with the code of which the advice is.
type unread struct {
	error
	code C.uint32_t
}

func (u *unread) Error() string {
	return advised(u.error.Error(), u.advice())
}

func (u *unread) Unwrap() error {
	return u.error
}

func (u *unread) advice() string {
	return C.GoString(C.cg_advice(u.code))
}

func advised(said, advice string) string {
	if advice == "" {
		return said
	}
	return said + "; what to do: " + advice
}

// isOfCommit says whether a refusal with this code is of one commit, at its position.
func isOfCommit(code uint32) bool {
	return code >= C.CG_CHECK_PARENT_OUT_OF_RANGE && code <= C.CG_CHECK_DUPLICATE_ID ||
		code >= C.CG_CHECK_NULL_ID && code <= C.CG_PARENT_EDGE_OVERFLOW ||
		code >= C.CG_DATES_OVERFLOW_INDEX && code <= C.CG_DATES_WRONG
}

// name adds the commit of which a refusal speaks, and its layer, by an open graph, and says whether that has it.
func (e *Error) name(graph C.cg_graph) bool {
	id := make([]byte, 32)
	e.Commit = id[:C.cg_id_at(graph, C.uint32_t(e.Position), at(id), C.cg_id_len(graph))]
	for layer := (C.cg_layer_info{}); C.cg_layer(graph, C.uint64_t(e.Layer), &layer); e.Layer++ {
		if e.Position-uint32(layer.first) < uint32(layer.num_commits) {
			return true
		}
	}
	return false
}

// refused is the refusal of layers by a check, with the file and the commit of which it speaks: the graph of the same layers, which is
// opened without a check, has the commit.
func refused(code uint32, verdict *C.cg_verdict, files []C.cg_file, paths []string) *Error {
	err := &Error{Code: code, Layer: uint64(verdict.layer), Position: uint32(verdict.position)}
	isOfLayer := code == C.CG_PATH_NOT_UTF8 || code > 100 && code < 200 || code == C.CG_GRAPH_HASH_MISMATCH || code > C.CG_CHECK_TOO_MANY_FILES
	if isOfCommit(code) && len(files) > 0 {
		var graph C.cg_graph
		C.cg_open(&files[0], C.size_t(len(files)), &graph)
		isOfLayer = err.name(graph)
		C.cg_close(&graph)
	}
	if isOfLayer && err.Layer < uint64(len(paths)) {
		err.Path = paths[err.Layer]
	}
	return err
}

// Layer is the bytes of a layer, and the path of its file.
type Layer struct {
	Bytes []byte
	Path  string
}

// Open opens the graph at a path, of a file, of a folder with a chain or of an info folder, in most repositories
// .git/objects/info, and checks it; with distinctIDs also that no id stands in two layers. Where neither the file nor the chain of an
// info folder is opened, the error is a *NeitherError, if neither is missing.
func Open(path string, distinctIDs bool) (*Graph, error) {
	return OpenWithin(context.Background(), path, distinctIDs, math.MaxUint64)
}

// OpenWithin opens a graph as Open does, unless its check is stopped: where it would have to visit more commits, or the context is
// done, whose error is answered then. What reads the files does not look at the context, and neither do the digests of the files.
func OpenWithin(ctx context.Context, path string, distinctIDs bool, visits uint64) (*Graph, error) {
	if err := otherVersion(uint32(C.cg_version())); err != nil {
		return nil, err
	}
	known := &paths{asked: path}
	defer known.free()
	if !utf8.ValidString(path) {
		known.root, known.asked = path, ""
		// The check compares the name of a layer's file with its checksum.
		if folder, name := filepath.Split(path); name != "" && utf8.ValidString(name) {
			known.root, known.asked = strings.TrimSuffix(folder, "/"), name
		}
	}
	raw, err := known.openAsked()
	if err != nil {
		return nil, err
	}
	return known.checked(ctx, raw, distinctIDs, visits)
}

// otherVersion says so where the library is not of the version that the package was built with.
func otherVersion(found uint32) error {
	if found == C.CG_VERSION {
		return nil
	}
	return fmt.Errorf("libcommitgraph is of version %d, and the program was built with version %d; what to do: build it anew, "+
		"with `go build -a`, or let LD_LIBRARY_PATH name the folder of the library that it was built with", found, int(C.CG_VERSION))
}

// checked checks the graph that was opened, and closes it where it is refused.
func (p *paths) checked(ctx context.Context, raw C.cg_graph, distinctIDs bool, visits uint64) (*Graph, error) {
	var verdict C.cg_verdict
	var counts [1]C.cg_count
	checked := &openGraph{}
	err := within(ctx, visits, func(limit C.cg_limit) C.uint32_t {
		return C.cg_check_within(&raw, C.bool(distinctIDs), limit, &verdict, &counts[0], 0, &checked.raw)
	})
	C.cg_close(&raw)
	var told *Error
	if errors.As(err, &told) {
		return nil, p.refused(told.Code, &verdict)
	}
	if err != nil {
		return nil, err
	}
	return graphOf(checked), nil
}

// within makes a call that stops where it would have to visit more commits, or where the context is done.
func within(ctx context.Context, visits uint64, call func(C.cg_limit) C.uint32_t) error {
	if ctx.Err() != nil {
		return ctx.Err()
	}
	limit := C.cg_limit{visits: C.uint64_t(visits)}
	if ctx.Done() != nil {
		if code := C.cg_flag_new(&limit.flag); code != C.CG_OK {
			return &Error{Code: uint32(code)}
		}
		defer C.cg_flag_free(&limit.flag)
		ended, raised := make(chan struct{}), make(chan struct{})
		go func() {
			defer close(raised)
			select {
			case <-ctx.Done():
				C.cg_flag_raise(limit.flag)
			case <-ended:
			}
		}()
		defer func() { close(ended); <-raised }()
	}
	code := call(limit)
	switch {
	case code == C.CG_OK:
		return nil
	case code == C.CG_STOPPED && ctx.Err() != nil:
		return ctx.Err()
	}
	return &Error{Code: uint32(code)}
}

// paths are what is known of paths, which all begin at the root. A layer that several lines of a chain name stands there for each.
type paths struct {
	root, asked string
	known       []*standing
}

// standing is what stands at a path, with a copy for C; and why a file was not read.
type standing struct {
	path string
	raw  C.cg_known
	err  error
}

func (p *paths) free() {
	freed := map[*standing]bool{}
	for _, it := range p.known {
		if !freed[it] {
			C.free(unsafe.Pointer(it.raw.path))
			C.free(unsafe.Pointer(it.raw.bytes))
			freed[it] = true
		}
	}
}

// file is what stands where an info folder has its file, if an info folder was asked for.
func (p *paths) file() *standing {
	for _, it := range p.known {
		if it.path != p.asked && strings.HasSuffix(it.path, "commit-graph") {
			return it
		}
	}
	return nil
}

// layers are the files of the graph that was opened, the lowest layer first: those that a chain file names, which stand behind it,
// since it is asked for only where the chain is opened; else the one file.
func (p *paths) layers() []*standing {
	layers, isChain := []*standing{}, false
	for _, it := range p.known {
		switch {
		case it.raw.kind != C.CG_READ:
		case !isChain && it.path != p.asked && strings.HasSuffix(it.path, chainFile):
			layers, isChain = nil, true
		case isChain, len(layers) == 0 && (it.path == p.asked || strings.HasSuffix(it.path, "commit-graph")):
			layers = append(layers, it)
		}
	}
	return layers
}

// refused is the refusal of the graph that was opened by its check.
func (p *paths) refused(code uint32, verdict *C.cg_verdict) *Error {
	files, paths := []C.cg_file{}, []string{}
	for _, it := range p.layers() {
		path := (*C.uint8_t)(unsafe.Pointer(it.raw.path))
		files = append(files, C.cg_file{it.raw.bytes, it.raw.len, path, it.raw.path_len})
		paths = append(paths, p.whole(it.path))
	}
	err := refused(code, verdict, files, paths)
	if code == C.CG_CHECK_TOO_MANY_FILES && len(paths) > 0 {
		err.Path = beside(paths[0])
	}
	return err
}

const chainFile = "commit-graph-chain"

// beside is the path of the chain file of a layer, or its own.
func beside(path string) string {
	return filepath.Join(filepath.Dir(path), chainFile)
}

func (p *paths) whole(path string) string {
	switch {
	case path == "":
		return p.root
	case p.root == "":
		return path
	}
	return p.root + "/" + path
}

// openAsked opens the graph that was asked for. The refusal of an info folder's file is not hidden by that of its chain.
func (p *paths) openAsked() (C.cg_graph, error) {
	raw, chain := p.open(p.asked, C.CG_ANYTHING)
	file := p.file()
	if chain == nil || file == nil || isOfMemory(chain) {
		return raw, chain
	}
	again, err := p.open(file.path, C.CG_FILE)
	C.cg_close(&again)
	switch {
	case err == nil || isMissing(err) || isOfMemory(err):
		return raw, chain
	case isMissing(chain):
		return raw, err
	}
	return raw, &NeitherError{err, chain}
}

// isMissing says whether a file is not there, or what should be its folder is none.
func isMissing(err error) bool {
	return errors.Is(err, os.ErrNotExist) || errors.Is(err, syscall.ENOTDIR)
}

func isOfMemory(err error) bool {
	var told *Error
	return errors.As(err, &told) && told.Code == C.CG_OUT_OF_MEMORY
}

// open opens the graph at a path, by as many calls as there are paths of which the library has to know.
func (p *paths) open(path string, place C.uint32_t) (C.cg_graph, error) {
	for room := 4096; ; {
		told, file, raw := p.ask(path, place, room)
		switch {
		case told.code == C.CG_OK:
			return raw, nil
		case uint64(told.length) > uint64(room):
			room = int(told.length)
		case told.code == C.CG_PATH_WANTED:
			p.learn(file)
		case told.code == C.CG_OPEN_NOTHING_FOUND:
			return raw, &unread{&os.PathError{Op: "open", Path: p.whole(path), Err: os.ErrNotExist}, told.code}
		default:
			return raw, p.refusal(told, file)
		}
	}
}

func (p *paths) ask(path string, place C.uint32_t, room int) (C.cg_path_error, string, C.cg_graph) {
	asked, file := []byte(path), make([]byte, room)
	known := C.calloc(C.size_t(len(p.known)+1), C.sizeof_cg_known)
	if known == nil {
		return C.cg_path_error{code: C.CG_OUT_OF_MEMORY}, "", C.cg_graph{}
	}
	defer C.free(known)
	for number, it := range p.known {
		unsafe.Slice((*C.cg_known)(known), len(p.known)+1)[number] = it.raw
	}
	var raw C.cg_graph
	told := C.cg_open_known((*C.char)(unsafe.Pointer(at(asked))), C.size_t(len(asked)), place, (*C.cg_known)(known),
		C.size_t(len(p.known)), (*C.char)(unsafe.Pointer(at(file))), C.size_t(room), &raw)
	if uint64(told.length) < uint64(room) {
		file = file[:told.length]
	}
	return told, string(file), raw
}

// learn looks what stands at a path; and, so that no layer is opened once for each one above it, where a chain file names layers.
// Each file is read once, however many lines name it.
func (p *paths) learn(path string) {
	found, text := p.look(path)
	p.known = append(p.known, found)
	folder := strings.TrimSuffix(path, chainFile)
	if folder == path {
		return
	}
	layers := map[string]*standing{}
	for _, line := range chainLines(text) {
		if layers[line] == nil {
			layers[line], _ = p.look(folder + "graph-" + line + ".graph")
		}
		p.known = append(p.known, layers[line])
	}
}

// look looks what stands at a path, and answers the bytes of a file besides.
func (p *paths) look(path string) (*standing, []byte) {
	bytes, kind, err := read(p.whole(path))
	if errors.Is(err, syscall.ENOMEM) {
		kind = C.CG_NO_MEMORY
	}
	raw := C.cg_known{path: (*C.char)(C.CBytes([]byte(path))), path_len: C.size_t(len(path)), kind: kind}
	raw.bytes, raw.len = (*C.uint8_t)(C.CBytes(bytes)), C.size_t(len(bytes))
	return &standing{path, raw, err}, bytes
}

func read(path string) ([]byte, C.uint32_t, error) {
	status, err := os.Stat(path)
	if err != nil {
		return nil, C.CG_NOTHING, err
	}
	if status.IsDir() {
		return nil, C.CG_FOLDER, &os.PathError{Op: "read", Path: path, Err: syscall.EISDIR}
	}
	file, err := os.Open(path)
	if err != nil {
		return nil, C.CG_UNOPENED, err
	}
	defer file.Close()
	bytes, err := io.ReadAll(file)
	if err != nil {
		return nil, C.CG_UNREAD, err
	}
	return bytes, C.CG_READ, nil
}

// refusal says why no graph was opened; the file is the one that it is about.
func (p *paths) refusal(told C.cg_path_error, file string) error {
	if told.code == C.CG_OPEN_NOT_OPENED || told.code == C.CG_OPEN_READ_FAILED {
		for _, it := range p.known {
			if it.path == file && it.err != nil {
				return &unread{it.err, told.code}
			}
		}
	}
	err := &Error{Code: uint32(told.code), Layer: uint64(told.layer)}
	switch {
	case told.code == C.CG_OUT_OF_MEMORY:
	case told.code == C.CG_OPEN_CHAIN_NOT_TEXT || told.code >= C.CG_GRAPH_NO_FILES:
		err.Path = beside(p.whole(file))
	default:
		err.Path = p.whole(file)
	}
	return err
}

// chainLines are the lines of a chain file, each of which names a layer.
func chainLines(text []byte) []string {
	var lines []string
	for start := C.size_t(0); ; {
		line := C.cg_chain_line(at(text), C.size_t(len(text)), start)
		if !line.found {
			return lines
		}
		lines = append(lines, string(text[start:line.end]))
		start = line.next
	}
}

// OpenLayers opens and checks the graph of layers whose bytes are at hand, the lowest first.
func OpenLayers(layers []Layer, distinctIDs bool) (*Graph, error) {
	if err := otherVersion(uint32(C.cg_version())); err != nil {
		return nil, err
	}
	room := C.calloc(C.size_t(len(layers)+1), C.sizeof_cg_file)
	if room == nil {
		return nil, &Error{Code: C.CG_OUT_OF_MEMORY}
	}
	defer C.free(room)
	files := unsafe.Slice((*C.cg_file)(room), len(layers)+1)
	for number, layer := range layers {
		bytes, path := C.CBytes(layer.Bytes), C.CBytes([]byte(layer.Path))
		defer C.free(bytes)
		defer C.free(path)
		files[number] = C.cg_file{(*C.uint8_t)(bytes), C.size_t(len(layer.Bytes)), (*C.uint8_t)(path), C.size_t(len(layer.Path))}
	}
	var verdict C.cg_verdict
	var counts [1]C.cg_count
	opened := &openGraph{}
	told := C.cg_open_checked(&files[0], C.size_t(len(layers)), C.bool(distinctIDs), &verdict, &counts[0], 0, &opened.raw)
	if told.code == C.CG_OK {
		return graphOf(opened), nil
	}
	paths := make([]string, len(layers))
	for number, layer := range layers {
		paths[number] = layer.Path
	}
	return nil, refused(uint32(told.code), &verdict, files[:len(layers)], paths)
}

// Close frees the graph, which answers nothing after that. No other goroutine may ask it meanwhile.
func (g *Graph) Close() {
	if g.open != nil {
		runtime.SetFinalizer(g.open, nil)
		g.open.close()
	}
}

// Len is the number of commits.
func (g *Graph) Len() uint32 {
	defer runtime.KeepAlive(g)
	return uint32(C.cg_num_commits(g.raw()))
}

// Lookup is the position of the commit with an id, or Nowhere; in a graph that is closed always Nowhere.
func (g *Graph) Lookup(id []byte) uint32 {
	defer runtime.KeepAlive(g)
	return uint32(C.cg_lookup(g.raw(), at(id), C.size_t(len(id))))
}

// LookupAll are the positions of the commits with these ids, as Lookup finds each.
func (g *Graph) LookupAll(ids [][]byte) []uint32 {
	defer runtime.KeepAlive(g)
	size := int(C.cg_id_len(g.raw()))
	all, out := make([]byte, 0, size*len(ids)), make([]uint32, len(ids)+1)
	for _, id := range ids {
		if len(id) != size {
			id = make([]byte, size)
		}
		all = append(all, id...)
	}
	C.cg_lookup_all(g.raw(), at(all), C.size_t(len(all)), C.size_t(size), (*C.uint32_t)(&out[0]), C.size_t(len(ids)))
	for number, id := range ids {
		if size == 0 || len(id) != size {
			out[number] = Nowhere
		}
	}
	return out[:len(ids)]
}

// ID is the id of the commit at a position.
func (g *Graph) ID(position uint32) ([]byte, error) {
	defer runtime.KeepAlive(g)
	id := make([]byte, 32)
	length := C.cg_id_at(g.raw(), C.uint32_t(position), at(id), C.cg_id_len(g.raw()))
	return g.written(id, length, position)
}

// IDs are the ids of the commits at these positions.
func (g *Graph) IDs(positions []uint32) ([][]byte, error) {
	defer runtime.KeepAlive(g)
	size, asked := int(C.cg_id_len(g.raw())), append(append([]uint32{}, positions...), 0)
	all, ids := make([]byte, size*len(positions)), make([][]byte, len(positions))
	told := C.cg_ids_at(g.raw(), (*C.uint32_t)(&asked[0]), C.size_t(len(positions)), at(all), C.size_t(len(all)))
	if told.code != C.CG_OK {
		return nil, &Error{Code: uint32(told.code), Number: uint64(told.answered), isNumbered: told.code == C.CG_NO_SUCH_POSITION}
	}
	for number := range ids {
		ids[number] = all[size*number : size*(number+1)]
	}
	return ids, nil
}

// Tree is the id of the root tree of the commit at a position.
func (g *Graph) Tree(position uint32) ([]byte, error) {
	defer runtime.KeepAlive(g)
	id := make([]byte, 32)
	length := C.cg_tree_at(g.raw(), C.uint32_t(position), at(id), C.cg_id_len(g.raw()))
	return g.written(id, length, position)
}

func (g *Graph) written(id []byte, length C.size_t, position uint32) ([]byte, error) {
	if length == 0 {
		return nil, g.noCommit(position)
	}
	return id[:length], nil
}

// noCommit says why there is no commit at a position: the graph is closed, or has too few.
func (g *Graph) noCommit(position uint32) error {
	if C.cg_id_len(g.raw()) == 0 {
		return &Error{Code: C.CG_CLOSED_GRAPH}
	}
	return &Error{Code: C.CG_NO_SUCH_POSITION, Position: position}
}

// Record is what the record of a commit says, but for its ids and its parents.
type Record struct {
	// Time is in seconds since 1970-01-01 00:00:00 UTC.
	Time       uint64
	Generation uint32
}

// Record is what the record of the commit at a position says.
func (g *Graph) Record(position uint32) (Record, error) {
	defer runtime.KeepAlive(g)
	var told C.cg_commit
	if !C.cg_commit_at(g.raw(), C.uint32_t(position), &told) {
		return Record{}, g.noCommit(position)
	}
	return Record{uint64(told.time), uint32(told.generation)}, nil
}

// Parents are the positions of the parents of the commit at a position, the first parent first.
func (g *Graph) Parents(position uint32) ([]uint32, error) {
	defer runtime.KeepAlive(g)
	for room := 2; ; {
		out := make([]uint32, room)
		told := C.cg_parents(g.raw(), C.uint32_t(position), (*C.uint32_t)(&out[0]), C.size_t(room))
		if told.code != C.CG_OK {
			return nil, &Error{Code: uint32(told.code), Position: position}
		}
		if uint64(told.count) <= uint64(room) {
			return out[:told.count], nil
		}
		room = int(told.count)
	}
}

// IsAncestor says whether a commit is an ancestor of another, in the order of git merge-base --is-ancestor.
func (g *Graph) IsAncestor(ancestor, descendant uint32) (bool, error) {
	return g.IsAncestorWithin(context.Background(), ancestor, descendant, math.MaxUint64)
}

// IsAncestorWithin says so, unless it would have to visit more commits, or the context is done, whose error is answered then.
func (g *Graph) IsAncestorWithin(ctx context.Context, ancestor, descendant uint32, visits uint64) (bool, error) {
	defer runtime.KeepAlive(g)
	var told C.cg_leads
	err := within(ctx, visits, func(limit C.cg_limit) C.uint32_t {
		told = C.cg_is_ancestor_within(g.raw(), C.uint32_t(ancestor), C.uint32_t(descendant), limit)
		return told.code
	})
	return bool(told.found), g.positioned(err, ancestor, descendant)
}

// positioned adds to an error, where the graph has no such position, the first of these that it has not.
func (g *Graph) positioned(err error, positions ...uint32) error {
	told, ok := err.(*Error)
	if !ok || told.Code != C.CG_NO_SUCH_POSITION {
		return err
	}
	for _, position := range positions {
		if position >= g.Len() {
			told.Position = position
			break
		}
	}
	return told
}

// Comparison is what a commit and some others have in common, and how far they have come apart.
type Comparison struct {
	// Bases are the positions of the merge bases, the least first.
	Bases []uint32
	// Ahead counts the commits that the first leads to and none of the others does, Behind those that some of the others leads to
	// and the first does not.
	Ahead, Behind uint32
}

// Compare finds the merge bases that git merge-base --all FIRST OTHERS.. names.
func (g *Graph) Compare(first uint32, others ...uint32) (Comparison, error) {
	return g.compared(first, others, func(asked, out []uint32) (told C.cg_bases, err error) {
		told = C.cg_merge_bases(g.raw(), C.uint32_t(first), (*C.uint32_t)(&asked[0]), C.size_t(len(others)),
			(*C.uint32_t)(&out[0]), C.size_t(len(out)))
		if told.code != C.CG_OK {
			err = &Error{Code: uint32(told.code)}
		}
		return told, err
	})
}

// CompareWithin finds them by generation numbers alone, unless it would have to visit more commits, or the context is done, whose
// error is answered then.
func (g *Graph) CompareWithin(ctx context.Context, visits uint64, first uint32, others ...uint32) (Comparison, error) {
	return g.compared(first, others, func(asked, out []uint32) (told C.cg_bases, err error) {
		err = within(ctx, visits, func(limit C.cg_limit) C.uint32_t {
			told = C.cg_merge_bases_within(g.raw(), C.uint32_t(first), (*C.uint32_t)(&asked[0]), C.size_t(len(others)), limit,
				(*C.uint32_t)(&out[0]), C.size_t(len(out)))
			return told.code
		})
		return told, err
	})
}

// compared makes a search for merge bases, and makes it again where they take more room.
func (g *Graph) compared(first uint32, others []uint32, search func(asked, out []uint32) (C.cg_bases, error)) (Comparison, error) {
	defer runtime.KeepAlive(g)
	asked := append(append([]uint32{}, others...), 0)
	for room := 64; ; {
		out := make([]uint32, room)
		told, err := search(asked, out)
		if err != nil {
			return Comparison{}, g.positioned(err, append([]uint32{first}, others...)...)
		}
		if uint64(told.length) <= uint64(room) {
			return Comparison{out[:told.length], uint32(told.ahead), uint32(told.behind)}, nil
		}
		room = int(told.length)
	}
}

// CompareAll compares the commits of each pair, as Compare does.
func (g *Graph) CompareAll(pairs [][2]uint32) ([]Comparison, error) {
	defer runtime.KeepAlive(g)
	asked, answers := make([]C.cg_two, len(pairs)+1), make([]C.cg_bases, len(pairs)+1)
	for number, pair := range pairs {
		asked[number] = C.cg_two{C.uint32_t(pair[0]), C.uint32_t(pair[1])}
	}
	count := C.size_t(len(pairs))
	for room := len(pairs) + 1; ; {
		out := make([]uint32, room)
		told := C.cg_merge_bases_of(g.raw(), &asked[0], count, &answers[0], count, (*C.uint32_t)(&out[0]), C.size_t(room))
		if told.code != C.CG_OK {
			return nil, &Error{Code: uint32(told.code), Number: uint64(told.answered), isNumbered: told.code == C.CG_NO_SUCH_POSITION}
		}
		if uint64(told.length) <= uint64(room) {
			return comparisons(answers[:len(pairs)], out), nil
		}
		room = int(told.length)
	}
}

// comparisons takes the merge bases of each pair from those of all, one pair's after another's.
func comparisons(answers []C.cg_bases, bases []uint32) []Comparison {
	all := make([]Comparison, len(answers))
	for number, answer := range answers {
		all[number] = Comparison{bases[:answer.length:answer.length], uint32(answer.ahead), uint32(answer.behind)}
		bases = bases[answer.length:]
	}
	return all
}

// NewCommit is a commit that a layer is to have, with the ids of its parents, first parent first.
type NewCommit struct {
	ID, Tree []byte
	Parents  [][]byte
	// Time is in seconds since 1970-01-01 00:00:00 UTC.
	Time uint64
}

// WriteFile makes the bytes of the file with these commits, in any order, as the only layer: what Git writes of them, without
// changed-path filters. The checksum, by which the file of a chain is named graph-X.graph, is its end.
func WriteFile(commits []NewCommit) ([]byte, error) {
	return write(C.cg_graph{}, commits)
}

// WriteLayer makes the bytes of the file of a layer with these commits, in any order, on top of this graph: see WriteFile.
func (g *Graph) WriteLayer(commits []NewCommit) ([]byte, error) {
	defer runtime.KeepAlive(g)
	if !g.raw().opened {
		return nil, &Error{Code: C.CG_CLOSED_GRAPH}
	}
	return write(g.raw(), commits)
}

func write(below C.cg_graph, commits []NewCommit) ([]byte, error) {
	if err := otherVersion(uint32(C.cg_version())); err != nil {
		return nil, err
	}
	handed, err := handedIn(commits)
	if err != nil {
		return nil, err
	}
	var file C.cg_bytes
	told := C.cg_write(below, handed, C.size_t(len(commits)), &file)
	C.free(unsafe.Pointer(handed))
	if told.code != C.CG_OK {
		err := &Error{
			Code: uint32(told.code), Layer: uint64(told.layer), Position: uint32(told.position),
			Number: uint64(told.commit), Other: uint64(told.other),
		}
		if isOfCommit(err.Code) {
			err.name(below)
		}
		return nil, err
	}
	defer C.cg_bytes_free(&file)
	lent := C.not_lent()
	C.cg_lend_bytes(file, &lent)
	return append([]byte{}, unsafe.Slice((*byte)(unsafe.Pointer(lent.bytes)), int(lent.len))...), nil
}

// handedIn lists commits for C, in memory of C's that the caller frees: C gets no pointer to memory of Go's that holds one. Their
// ids stand behind the list, one after another, and a byte behind those, so that each has an address there.
func handedIn(commits []NewCommit) (*C.cg_new_commit, error) {
	size, err := idBytes(commits)
	if err != nil {
		return nil, err
	}
	list := len(commits) * C.sizeof_cg_new_commit
	room := C.calloc(1, C.size_t(list+size+1))
	if room == nil {
		return nil, &Error{Code: C.CG_OUT_OF_MEMORY}
	}
	handed, next := unsafe.Slice((*C.cg_new_commit)(room), len(commits)), unsafe.Slice((*byte)(unsafe.Add(room, list)), size+1)
	put := func(ids ...[]byte) (*C.uint8_t, C.size_t) {
		first, put := at(next), 0
		for _, id := range ids {
			put += copy(next, id)
			next = next[len(id):]
		}
		return first, C.size_t(put)
	}
	for number, commit := range commits {
		one := &handed[number]
		one.id, one.id_len = put(commit.ID)
		one.tree, one.tree_len = put(commit.Tree)
		one.parents, one.parents_len = put(commit.Parents...)
		one.time = C.uint64_t(commit.Time)
	}
	return (*C.cg_new_commit)(room), nil
}

// idBytes counts the bytes of the ids of commits, each of whose parents has an id as long as its own.
func idBytes(commits []NewCommit) (int, error) {
	size := 0
	for number, commit := range commits {
		for _, parent := range commit.Parents {
			if len(parent) != len(commit.ID) {
				return 0, &Error{Code: C.CG_WRITE_NO_IDS, Number: uint64(number)}
			}
		}
		size += len(commit.ID)*(1+len(commit.Parents)) + len(commit.Tree)
	}
	return size, nil
}

var none [1]byte

// at is the address of bytes, which is not null, also where there are none.
func at(bytes []byte) *C.uint8_t {
	if len(bytes) == 0 {
		bytes = none[:]
	}
	return (*C.uint8_t)(unsafe.Pointer(&bytes[0]))
}
