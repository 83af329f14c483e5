//! A layer of a commit-graph and a chain of layers, decoded once.

pub const ID_LEN: usize = 20;
pub const NO_PARENT: u32 = 0x7000_0000;
pub const TOP_BIT: u32 = 0x8000_0000;

const RECORD_LEN: usize = ID_LEN + 16;
const TIME_BITS: u32 = 34;

pub type Id = [u8; ID_LEN];

fn word_at(bytes: &[u8], at: usize) -> u32 {
    u32::from_be_bytes(bytes[at..at + 4].try_into().unwrap())
}

fn long_at(bytes: &[u8], at: usize) -> u64 {
    u64::from_be_bytes(bytes[at..at + 8].try_into().unwrap())
}

/// The first eight bytes of an id as a number: ids are in the order of these, unless they are equal.
pub fn front(id: &Id) -> u64 {
    long_at(id, 0)
}

/// A layer. Of each commit its number in each of the vectors, which are as long as its ids.
pub struct Layer<'a> {
    /// The whole file.
    pub data: &'a [u8],
    pub fan: [u32; 256],
    pub ids: &'a [Id],
    /// The ids of base layers.
    pub bases: &'a [Id],
    records: &'a [[u8; RECORD_LEN]],
    /// Both parent fields of each.
    pub parents: Vec<(u32, u32)>,
    pub generations: Vec<u32>,
    times: Vec<u64>,
    /// The words of the extra edge list.
    pub edges: Option<Vec<u32>>,
}

impl<'a> Layer<'a> {
    pub fn new(data: &'a [u8]) -> Option<Layer<'a>> {
        if &data[..6] != b"CGPH\x01\x01" {
            return None;
        }
        let chunk = |name: &[u8; 4]| {
            (0..usize::from(data[6]))
                .map(|row| &data[8 + 12 * row..][..24])
                .find(|row| &row[..4] == name)
                .map(|row| &data[long_at(row, 4) as usize..long_at(row, 16) as usize])
        };
        let fan = words(chunk(b"OIDF")?).try_into().ok()?;
        let (ids, []) = chunk(b"OIDL")?.as_chunks() else {
            return None;
        };
        let (records, []) = chunk(b"CDAT")?.as_chunks() else {
            return None;
        };
        let (bases, []) = chunk(b"BASE").unwrap_or(&[]).as_chunks() else {
            return None;
        };
        let mut layer = Layer {
            data,
            fan,
            ids,
            bases,
            records,
            parents: Vec::with_capacity(records.len()),
            generations: Vec::with_capacity(records.len()),
            times: Vec::with_capacity(records.len()),
            edges: chunk(b"EDGE").map(words),
        };
        layer.decode();
        Some(layer)
            .filter(|layer| layer.ids.len() == layer.records.len() && layer.len() == layer.fan[255])
    }

    /// Fills the vectors in one pass over the records.
    fn decode(&mut self) {
        for record in self.records {
            let long = long_at(record, ID_LEN + 8);
            self.parents
                .push((word_at(record, ID_LEN), word_at(record, ID_LEN + 4)));
            self.generations.push((long >> TIME_BITS) as u32);
            self.times.push(long % (1 << TIME_BITS));
        }
    }

    pub fn len(&self) -> u32 {
        self.ids.len() as u32
    }

    pub fn root_tree_id(&self, pos: usize) -> &Id {
        self.records[pos].first_chunk().unwrap()
    }

    pub fn lookup(&self, id: &Id) -> Option<u32> {
        let wanted = front(id);
        let mut low = if id[0] == 0 {
            0
        } else {
            self.fan[usize::from(id[0] - 1)]
        };
        let mut high = self.fan[usize::from(id[0])];
        while low < high {
            let middle = low + (high - low) / 2;
            let other = &self.ids[middle as usize];
            let found = front(other);
            if found == wanted && id == other {
                return Some(middle);
            }
            if wanted < found || found == wanted && id < other {
                high = middle;
            } else {
                low = middle + 1;
            }
        }
        None
    }

    pub fn commit_at(&self, pos: u32) -> Commit<'_> {
        let pos = pos as usize;
        Commit {
            first: self.parents[pos].0,
            second: self.parents[pos].1,
            generation: self.generations[pos],
            time: self.times[pos],
            edges: self.edges.as_deref(),
        }
    }

    /// The parents of each commit.
    pub fn all_parents(&self) -> impl Iterator<Item = Parents<'_>> {
        let edges = self.edges.as_deref();
        let fields = self.parents.iter();
        fields.map(move |(first, second)| Parents::new(*first, *second, edges))
    }
}

fn words(bytes: &[u8]) -> Vec<u32> {
    bytes
        .as_chunks()
        .0
        .iter()
        .map(|word| u32::from_be_bytes(*word))
        .collect()
}

/// What a record says.
pub struct Commit<'a> {
    first: u32,
    second: u32,
    pub generation: u32,
    pub time: u64,
    edges: Option<&'a [u32]>,
}

impl<'a> Commit<'a> {
    pub fn parents(&self) -> Parents<'a> {
        Parents::new(self.first, self.second, self.edges)
    }
}

/// The parents of a commit that are left: the two fields of its record that come next, as they stand
/// there. Once the first was given, the second field's index into the extra edge list counts on.
pub struct Parents<'a> {
    next: u32,
    after: u32,
    started: bool,
    edges: Option<&'a [u32]>,
}

pub struct Damaged;

impl<'a> Parents<'a> {
    pub fn new(first: u32, second: u32, edges: Option<&'a [u32]>) -> Parents<'a> {
        Parents {
            next: first,
            after: second,
            started: false,
            edges,
        }
    }

    /// The next parent of the extra edge list, or what is wrong.
    #[cold]
    #[inline(never)]
    fn next_rare(&mut self) -> Option<Result<u32, Damaged>> {
        let word = std::mem::replace(&mut self.next, NO_PARENT);
        if !std::mem::replace(&mut self.started, true) {
            self.after = NO_PARENT;
            return Some(Err(Damaged));
        }
        match self
            .edges
            .and_then(|edges| edges.get((word - TOP_BIT) as usize))
        {
            None => Some(Err(Damaged)),
            Some(edge) if *edge >= TOP_BIT => Some(Ok(*edge - TOP_BIT)),
            Some(edge) => {
                self.next = word + 1;
                Some(Ok(*edge))
            }
        }
    }
}

impl Iterator for Parents<'_> {
    type Item = Result<u32, Damaged>;

    #[inline]
    fn next(&mut self) -> Option<Result<u32, Damaged>> {
        let word = self.next;
        if word < TOP_BIT && word != NO_PARENT {
            self.next = std::mem::replace(&mut self.after, NO_PARENT);
            self.started = true;
            return Some(Ok(word));
        }
        if word == NO_PARENT && (self.started || self.after == NO_PARENT) {
            return None;
        }
        self.next_rare()
    }
}

/// Layers, the lowest first, and how many commits stand before each.
pub struct Chain<'a> {
    pub layers: Vec<Layer<'a>>,
    starts: Vec<u32>,
}

impl<'a> Chain<'a> {
    pub fn new(layers: Vec<Layer<'a>>) -> Chain<'a> {
        let mut starts = Vec::with_capacity(layers.len());
        let mut next = 0;
        for layer in &layers {
            starts.push(next);
            next += layer.len();
        }
        Chain { layers, starts }
    }

    pub fn lookup(&self, id: &Id) -> Option<u32> {
        let layers = self.layers.iter().zip(&self.starts);
        layers
            .filter_map(|(layer, start)| Some(start + layer.lookup(id)?))
            .next()
    }

    /// The layer in which a position lies, and how many commits stand before it.
    fn layer_of(&self, pos: u32) -> (&Layer<'a>, u32) {
        let number = self.starts.partition_point(|start| *start <= pos) - 1;
        (&self.layers[number], self.starts[number])
    }

    pub fn commit_at(&self, pos: u32) -> Commit<'_> {
        let (layer, start) = self.layer_of(pos);
        layer.commit_at(pos - start)
    }

    pub fn generation_at(&self, pos: u32) -> u32 {
        let (layer, start) = self.layer_of(pos);
        layer.generations[(pos - start) as usize]
    }
}
