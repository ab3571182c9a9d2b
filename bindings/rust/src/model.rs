use std::fmt;
use std::iter::Sum;
use std::ops::{Add, AddAssign, RangeInclusive};

use crate::ffi::{self, ANSWER_SIZE};
use crate::layout::{self, count, index, ELEMENT_LIMIT, FILE_LIMIT};
use crate::log::{Entry, StandingMerges};
use crate::numbers::{ElementId, FileId, Mark, Name, Version};
use crate::print::whole;
use crate::refusal::{LoadError, Refusal};
use crate::schema::Schema;
use crate::tree::{Element, Subtree, Tree};

/// A loaded deck: the merged model, the deliveries that wait, and the log of the merges that stand.
///
/// Each call either does all that it is for or is refused and changes nothing. Two models are equal where they come from the
/// same deck and stand the same.
#[derive(Clone, PartialEq, Eq)]
pub struct Model {
    pub(crate) deck: Box<str>,
    pub(crate) schema: Box<[u64]>,
    pub(crate) elements: Box<[u64]>,
    pub(crate) model: Box<[u64]>,
    pub(crate) log: Box<[u64]>,
}

/// What a merge did, in numbers. Their sum is the number of entries that it left in the log.
#[derive(Clone, Copy, Debug, Default, PartialEq, Eq, Hash)]
#[non_exhaustive]
pub struct Counts {
    /// Elements imported.
    pub imports: u64,
    /// Elements restricted to the older files.
    pub restrictions: u64,
    /// File sets extended, the root's among them.
    pub extensions: u64,
}

impl Counts {
    /// Their sum: the number of entries in the log.
    ///
    /// ```
    /// use zapelaritz::{FileId, Model};
    ///
    /// let deck = "T,0,0,0,0\nF,0,0\nF,1,0\nM\nE,0,0,1\nB,1\nE,0,0,0\n";
    /// let mut model = Model::load(deck)?;
    /// assert_eq!(model.merge(FileId(1))?.total(), 1);
    /// # Ok::<(), Box<dyn std::error::Error>>(())
    /// ```
    pub const fn total(self) -> u64 {
        self.imports + self.restrictions + self.extensions
    }
}

impl Add for Counts {
    type Output = Counts;

    fn add(self, other: Counts) -> Counts {
        Counts {
            imports: self.imports + other.imports,
            restrictions: self.restrictions + other.restrictions,
            extensions: self.extensions + other.extensions,
        }
    }
}

impl AddAssign for Counts {
    fn add_assign(&mut self, other: Counts) {
        *self = *self + other;
    }
}

impl Sum for Counts {
    fn sum<I: Iterator<Item = Counts>>(counts: I) -> Counts {
        counts.fold(Counts::default(), Counts::add)
    }
}

impl fmt::Display for Counts {
    fn fmt(&self, f: &mut fmt::Formatter<'_>) -> fmt::Result {
        let ending = |number| if number == 1 { "" } else { "s" };
        let Counts {
            imports,
            restrictions,
            extensions,
        } = *self;
        write!(f, "{imports} import{}, ", ending(imports))?;
        write!(f, "{restrictions} restriction{}, ", ending(restrictions))?;
        write!(f, "{extensions} extension{}", ending(extensions))
    }
}

/// The places in an element's content where a child may be put; place 0 is before all content.
#[derive(Clone, Copy, Debug, PartialEq, Eq, Hash)]
pub struct Places {
    /// The first place.
    pub first: usize,
    /// The last place.
    pub last: usize,
}

impl Places {
    /// Whether a place is one of them.
    ///
    /// ```
    /// let places = zapelaritz::Places { first: 1, last: 2 };
    /// assert!(places.contains(2));
    /// assert!(!places.contains(0));
    /// ```
    pub const fn contains(self, place: usize) -> bool {
        self.first <= place && place <= self.last
    }

    /// The places, in ascending order.
    ///
    /// ```
    /// let places = zapelaritz::Places { first: 1, last: 3 };
    /// assert!(places.iter().eq([1, 2, 3]));
    /// ```
    pub const fn iter(self) -> RangeInclusive<usize> {
        self.first..=self.last
    }
}

impl fmt::Display for Places {
    fn fmt(&self, f: &mut fmt::Formatter<'_>) -> fmt::Result {
        let Places { first, last } = self;
        if first == last {
            write!(f, "place {first}")
        } else {
            write!(f, "places {first} to {last}")
        }
    }
}

/// A file that the deck declares. It is shown as its line in a deck.
#[derive(Clone, Copy, Debug, PartialEq, Eq, Hash)]
pub struct File {
    /// Its number.
    pub id: FileId,
    /// Its version.
    pub version: Version,
}

impl fmt::Display for File {
    fn fmt(&self, f: &mut fmt::Formatter<'_>) -> fmt::Result {
        write!(f, "F,{},{}", self.id, self.version)
    }
}

impl Model {
    /// Loads a deck: its model, every delivery waiting, and the log empty. A deck may be any bytes.
    ///
    /// ```
    /// use zapelaritz::{FileId, LoadError, Model};
    ///
    /// let model = Model::load("T,0,0,0,0\nF,0,0\nM\nE,0,0,1\n")?;
    /// assert!(model.root().own_files().contains(FileId(0)));
    ///
    /// let error = Model::load("T,0,0,0,0\nF,0,0\nM\n").unwrap_err();
    /// assert_eq!(error, LoadError::TreeRule { line: 3 });
    /// assert_eq!(error.to_string(), "line 3: a rule of the trees is broken");
    ///
    /// assert_eq!(Model::load(b"\xff\n"), Err(LoadError::Form { line: 1 }));
    /// # Ok::<(), LoadError>(())
    /// ```
    pub fn load(deck: impl AsRef<[u8]>) -> Result<Model, LoadError> {
        let deck = deck.as_ref();
        let mut model = Model {
            deck: Box::default(),
            schema: zeros(layout::schema::SIZE),
            elements: zeros(layout::elements::SIZE),
            model: zeros(layout::model::SIZE),
            log: zeros(layout::log::SIZE),
        };
        let mut answer = [0; ANSWER_SIZE];
        let code = ffi::load(
            deck,
            &mut model.schema,
            &mut model.elements,
            &mut model.model,
            &mut model.log,
            &mut answer,
        );
        if code != ffi::ACCEPTED {
            return Err(LoadError::from_answer(code, answer));
        }
        // A deck that loads has LF and printable ASCII alone, so no byte is lost.
        model.deck = String::from_utf8_lossy(deck).into();
        Ok(model)
    }

    /// The deck that was loaded.
    ///
    /// ```
    /// use zapelaritz::Model;
    ///
    /// let deck = "T,0,0,0,0\nF,0,0\nM\nE,0,0,1\n";
    /// assert_eq!(Model::load(deck)?.deck(), deck);
    /// # Ok::<(), zapelaritz::LoadError>(())
    /// ```
    pub fn deck(&self) -> &str {
        &self.deck
    }

    /// Merges the waiting delivery of a file into the model.
    ///
    /// ```
    /// use zapelaritz::{FileId, Model, Refusal};
    ///
    /// let deck = "T,0,0,0,0\nF,0,0\nF,1,0\nM\nE,0,0,1\nB,1\nE,0,0,0\n";
    /// let mut model = Model::load(deck).unwrap();
    /// let counts = model.merge(FileId(1))?;
    /// assert_eq!(counts.to_string(), "0 imports, 0 restrictions, 1 extension");
    /// assert_eq!(model.merge(FileId(1)), Err(Refusal::NotWaiting));
    /// # Ok::<(), Refusal>(())
    /// ```
    pub fn merge(&mut self, file: FileId) -> Result<Counts, Refusal> {
        let mut answer = [0; ANSWER_SIZE];
        let code = ffi::merge(
            self.deck.as_bytes(),
            &self.schema,
            &self.elements,
            &mut self.model,
            &mut self.log,
            file.0,
            &mut answer,
        );
        let [imports, restrictions, extensions, _] = accepted(code, answer)?;
        Ok(Counts {
            imports,
            restrictions,
            extensions,
        })
    }

    /// The mark of now, for a later rollback: the length of the log.
    ///
    /// ```
    /// use zapelaritz::{FileId, Mark, Model};
    ///
    /// let deck = "T,0,0,0,0\nF,0,0\nF,1,0\nM\nE,0,0,1\nB,1\nE,0,0,0\n";
    /// let mut model = Model::load(deck)?;
    /// assert_eq!(model.mark(), Mark::START);
    /// model.merge(FileId(1))?;
    /// assert_eq!(model.mark(), Mark(1));
    /// # Ok::<(), Box<dyn std::error::Error>>(())
    /// ```
    pub fn mark(&self) -> Mark {
        Mark(self.log().len() as u64)
    }

    /// Takes back every merge since a mark; their deliveries wait again. Gives the number of entries taken off the log, which
    /// is the sum of the counts of the merges taken back.
    ///
    /// ```
    /// use zapelaritz::{FileId, Mark, Model, Refusal};
    ///
    /// let deck = "T,0,0,0,0\nF,0,0\nF,1,0\nM\nE,0,0,1\nB,1\nE,0,0,0\n";
    /// let mut model = Model::load(deck).unwrap();
    /// let mark = model.mark();
    /// model.merge(FileId(1))?;
    /// assert_eq!(model.rollback(mark)?, 1);
    /// assert_eq!(model.rollback(Mark(1)), Err(Refusal::NoMark));
    /// # Ok::<(), Refusal>(())
    /// ```
    pub fn rollback(&mut self, mark: Mark) -> Result<u64, Refusal> {
        let mut answer = [0; ANSWER_SIZE];
        let code = ffi::rollback(
            self.deck.as_bytes(),
            &self.schema,
            &self.elements,
            &mut self.model,
            &mut self.log,
            mark.0,
            &mut answer,
        );
        let [entries, ..] = accepted(code, answer)?;
        Ok(entries)
    }

    /// The places in an element's content where a child of a name may be put, in a version.
    ///
    /// ```
    /// use zapelaritz::{ElementId, Model, Name, Places, Refusal, Version};
    ///
    /// let deck = "T,0,0,0,0\nT,1,4,0,0\nS,0,0,3,1,2,1\nF,0,0\nM\nE,0,0,1\nE,1,3,0\n";
    /// let model = Model::load(deck).unwrap();
    /// let (element, name) = (ElementId::ROOT, Name(3));
    /// assert_eq!(model.range(element, name, Version(0))?, Places { first: 0, last: 1 });
    /// assert_eq!(
    ///     model.range(element, name, Version(1)),
    ///     Err(Refusal::NotInVersion { element, name })
    /// );
    /// # Ok::<(), Refusal>(())
    /// ```
    ///
    /// Two numbers that are exchanged do not compile:
    ///
    /// ```compile_fail,E0308
    /// use zapelaritz::{ElementId, Model, Name, Version};
    ///
    /// fn first_place(model: &Model, element: ElementId, name: Name, version: Version) -> usize {
    ///     model.range(name, element, version).map_or(0, |places| places.first)
    /// }
    /// ```
    pub fn range(
        &self,
        element: ElementId,
        name: Name,
        version: Version,
    ) -> Result<Places, Refusal> {
        let mut answer = [0; ANSWER_SIZE];
        let code = ffi::range(
            self.deck.as_bytes(),
            &self.schema,
            &self.elements,
            &self.model,
            &self.log,
            element.0,
            name.0,
            version.0,
            &mut answer,
        );
        let [first, last, ..] = accepted(code, answer)?;
        Ok(Places {
            first: index(first),
            last: index(last),
        })
    }

    /// The merged model as the E and C lines of a deck.
    ///
    /// ```
    /// use zapelaritz::{FileId, Model};
    ///
    /// let deck = "T,0,0,0,0\nF,0,0\nF,1,0\nM\nE,0,0,1\nB,1\nE,0,0,0\n";
    /// let mut model = Model::load(deck)?;
    /// model.merge(FileId(1))?;
    /// assert_eq!(model.model_lines(), "E,0,0,3\n");
    /// # Ok::<(), Box<dyn std::error::Error>>(())
    /// ```
    pub fn model_lines(&self) -> String {
        self.lines(ffi::print_model)
    }

    /// The merged model and the waiting trees as the M, B, E and C lines of a deck.
    ///
    /// ```
    /// use zapelaritz::Model;
    ///
    /// let deck = "T,0,0,0,0\nF,0,0\nF,1,0\nM\nE,0,0,1\nB,1\nE,0,0,0\n";
    /// let model = Model::load(deck)?;
    /// assert_eq!(model.trees_lines(), "M\nE,0,0,1\nB,1\nE,0,0,0\n");
    /// # Ok::<(), zapelaritz::LoadError>(())
    /// ```
    pub fn trees_lines(&self) -> String {
        self.lines(ffi::print_trees)
    }

    /// The log's length and its entries, one to a line, the oldest first.
    ///
    /// ```
    /// use zapelaritz::{FileId, Model};
    ///
    /// let deck = "T,0,0,0,0\nF,0,0\nF,1,0\nM\nE,0,0,1\nB,1\nE,0,0,0\n";
    /// let mut model = Model::load(deck)?;
    /// model.merge(FileId(1))?;
    /// assert_eq!(model.log_lines(), "log,1\nextension,0,1\n");
    /// # Ok::<(), Box<dyn std::error::Error>>(())
    /// ```
    pub fn log_lines(&self) -> String {
        self.lines(ffi::print_log)
    }

    fn lines(&self, print: ffi::Print) -> String {
        whole(|from, part| {
            let mut answer = [0; ANSWER_SIZE];
            let code = print(
                self.deck.as_bytes(),
                &self.schema,
                &self.elements,
                &self.model,
                &self.log,
                from,
                part,
                &mut answer,
            );
            match accepted(code, answer) {
                Ok([count, ..]) => index(count),
                Err(_) => 0,
            }
        })
    }

    /// The schema: which element may stand where.
    ///
    /// ```
    /// use zapelaritz::Model;
    ///
    /// let model = Model::load("T,0,0,0,0\nS,0,0,3,0,2,1\nF,0,0\nM\nE,0,0,1\n")?;
    /// assert_eq!(model.schema().types().len(), 1);
    /// assert_eq!(model.schema().rows().len(), 1);
    /// # Ok::<(), zapelaritz::LoadError>(())
    /// ```
    pub fn schema(&self) -> Schema<'_> {
        Schema::new(self)
    }

    /// The root of the merged model: element 0. Its set has the files that are loaded.
    ///
    /// ```
    /// use zapelaritz::{ElementId, Model};
    ///
    /// let model = Model::load("T,0,0,0,0\nF,0,0\nM\nE,0,0,1\n")?;
    /// assert_eq!(model.root().id(), ElementId::ROOT);
    /// assert_eq!(model.root().own_files().to_string(), "{0}");
    /// # Ok::<(), zapelaritz::LoadError>(())
    /// ```
    pub fn root(&self) -> Element<'_> {
        Element::new(self, 0)
    }

    /// The element of a number, in the merged model or in a delivered tree.
    ///
    /// ```
    /// use zapelaritz::{ElementId, Model, Name};
    ///
    /// let deck = "T,0,0,0,0\nT,1,4,0,0\nS,0,0,3,1,2,1\nF,0,0\nM\nE,0,0,1\nE,1,3,0\n";
    /// let model = Model::load(deck)?;
    /// assert_eq!(model.element(ElementId(1)).unwrap().name(), Name(3));
    /// assert_eq!(model.element(ElementId(2)), None);
    /// # Ok::<(), zapelaritz::LoadError>(())
    /// ```
    pub fn element(&self, id: ElementId) -> Option<Element<'_>> {
        let number = index(id.0);
        let elements = count(
            &self.elements,
            layout::elements::ELEMENT_COUNT,
            ELEMENT_LIMIT,
        );
        (number < elements).then(|| Element::new(self, number))
    }

    /// The first element of the merged model with a [path](Element::path).
    ///
    /// ```
    /// use zapelaritz::{ElementId, Model};
    ///
    /// let deck = "T,0,0,0,0\nT,1,0,1,0\nT,2,4,0,0\nS,0,0,3,1,2,1\nS,1,0,1,2,1,1\nF,0,0\n\
    ///     M\nE,0,0,1\nE,1,3,0\nE,2,1,0\nC,3,s,engine\n";
    /// let model = Model::load(deck)?;
    /// assert_eq!(model.element_at("/engine"), model.element(ElementId(1)));
    /// assert_eq!(model.element_at("/brakes"), None);
    /// # Ok::<(), zapelaritz::LoadError>(())
    /// ```
    pub fn element_at(&self, path: &str) -> Option<Element<'_>> {
        self.elements().find(|element| element.path() == path)
    }

    /// The elements of the merged model, depth first in the order of its lines.
    ///
    /// ```
    /// use zapelaritz::{Model, Name};
    ///
    /// let deck = "T,0,0,0,0\nT,1,4,0,0\nS,0,0,3,1,2,1\nF,0,0\nM\nE,0,0,1\nE,1,3,0\nC,2,s,red\n";
    /// let model = Model::load(deck)?;
    /// let names = model.elements().map(|element| element.name());
    /// assert!(names.eq([Name::ROOT, Name(3)]));
    /// # Ok::<(), zapelaritz::LoadError>(())
    /// ```
    pub fn elements(&self) -> Subtree<'_> {
        self.root().subtree()
    }

    /// The delivered trees that wait, in the order of the deck. A tree waits while its file is not in the root's set.
    ///
    /// ```
    /// use zapelaritz::{FileId, Model};
    ///
    /// let deck = "T,0,0,0,0\nF,0,0\nF,1,0\nM\nE,0,0,1\nB,1\nE,0,0,0\n";
    /// let mut model = Model::load(deck)?;
    /// let files: Vec<FileId> = model.waiting().map(|tree| tree.file).collect();
    /// assert_eq!(files, [FileId(1)]);
    /// for file in files {
    ///     model.merge(file)?;
    /// }
    /// assert_eq!(model.waiting().count(), 0);
    /// # Ok::<(), Box<dyn std::error::Error>>(())
    /// ```
    pub fn waiting(&self) -> impl DoubleEndedIterator<Item = Tree<'_>> + Clone {
        use layout::elements::{FILE, ROOT, TREES, TREE_COUNT};
        let loaded = self.root().own_files();
        (0..count(&self.elements, TREE_COUNT, FILE_LIMIT))
            .filter_map(|tree| {
                let file = FileId(TREES.cell(&self.elements, tree, FILE));
                let root = self.element(ElementId(TREES.cell(&self.elements, tree, ROOT)))?;
                Some(Tree { file, root })
            })
            .filter(move |tree| !loaded.contains(tree.file))
    }

    /// The merges that stand, the oldest first, as the log has them: each ends with the root's extension.
    ///
    /// ```
    /// use zapelaritz::{FileId, Mark, Model};
    ///
    /// let deck = "T,0,0,0,0\nF,0,0\nF,1,0\nF,2,0\nM\nE,0,0,1\nB,1\nE,0,0,0\nB,2\nE,0,0,0\n";
    /// let mut model = Model::load(deck)?;
    /// model.merge(FileId(2))?;
    /// model.merge(FileId(1))?;
    ///
    /// let latest = model.standing_merges().last().unwrap();
    /// assert_eq!((latest.file, latest.before, latest.after), (FileId(1), Mark(1), Mark(2)));
    /// model.rollback(latest.before)?;
    /// assert!(model.standing_merges().map(|merge| merge.file).eq([FileId(2)]));
    /// # Ok::<(), Box<dyn std::error::Error>>(())
    /// ```
    pub fn standing_merges(&self) -> StandingMerges<'_> {
        StandingMerges::new(self)
    }

    /// The entries of the log, the oldest first.
    ///
    /// ```
    /// use zapelaritz::{ElementId, Entry, FileId, Model};
    ///
    /// let deck = "T,0,0,0,0\nF,0,0\nF,1,0\nM\nE,0,0,1\nB,1\nE,0,0,0\n";
    /// let mut model = Model::load(deck)?;
    /// model.merge(FileId(1))?;
    /// let extension = Entry::Extension { element: ElementId::ROOT, file: FileId(1) };
    /// assert!(model.log().eq([extension]));
    /// # Ok::<(), Box<dyn std::error::Error>>(())
    /// ```
    pub fn log(&self) -> impl DoubleEndedIterator<Item = Entry> + ExactSizeIterator + Clone + '_ {
        self.log_between(Mark::START, Mark(u64::MAX))
    }

    /// The entries of the log from one mark to another, the oldest first: with the marks of a
    /// [standing merge](Model::standing_merges), what that merge did.
    ///
    /// ```
    /// use zapelaritz::{FileId, Model};
    ///
    /// let deck = "T,0,0,0,0\nF,0,0\nF,1,0\nF,2,0\nM\nE,0,0,1\nB,1\nE,0,0,0\nB,2\nE,0,0,0\n";
    /// let mut model = Model::load(deck)?;
    /// model.merge(FileId(1))?;
    /// let mark = model.mark();
    /// model.merge(FileId(2))?;
    /// let entries: Vec<String> = model.log_between(mark, model.mark()).map(|e| e.to_string()).collect();
    /// assert_eq!(entries, ["extension,0,2"]);
    /// # Ok::<(), Box<dyn std::error::Error>>(())
    /// ```
    pub fn log_between(
        &self,
        from: Mark,
        to: Mark,
    ) -> impl DoubleEndedIterator<Item = Entry> + ExactSizeIterator + Clone + '_ {
        use layout::log::{ENTRY_COUNT, LIMIT};
        let to = index(to.0).min(count(&self.log, ENTRY_COUNT, LIMIT));
        (index(from.0)..to).map(|entry| Entry::read(&self.log, entry))
    }

    /// The files that the deck declares, in ascending order.
    ///
    /// ```
    /// use zapelaritz::{File, FileId, Model, Version};
    ///
    /// let model = Model::load("T,0,0,0,0\nF,0,2\nM\nE,0,0,1\n")?;
    /// assert!(model.files().eq([File { id: FileId(0), version: Version(2) }]));
    /// # Ok::<(), zapelaritz::LoadError>(())
    /// ```
    pub fn files(&self) -> impl DoubleEndedIterator<Item = File> + ExactSizeIterator + Clone + '_ {
        use layout::schema::{FILE, FILES, FILE_COUNT, VERSION};
        (0..count(&self.schema, FILE_COUNT, FILE_LIMIT)).map(|file| File {
            id: FileId(FILES.cell(&self.schema, file, FILE)),
            version: Version(FILES.cell(&self.schema, file, VERSION)),
        })
    }

    /// The version of a file that the deck declares.
    ///
    /// ```
    /// use zapelaritz::{FileId, Model, Version};
    ///
    /// let model = Model::load("T,0,0,0,0\nF,0,2\nM\nE,0,0,1\n")?;
    /// assert_eq!(model.version_of(FileId(0)), Some(Version(2)));
    /// assert_eq!(model.version_of(FileId(1)), None);
    /// # Ok::<(), zapelaritz::LoadError>(())
    /// ```
    pub fn version_of(&self, file: FileId) -> Option<Version> {
        let declared = self.files().find(|declared| declared.id == file)?;
        Some(declared.version)
    }
}

impl fmt::Debug for Model {
    fn fmt(&self, f: &mut fmt::Formatter<'_>) -> fmt::Result {
        f.debug_struct("Model")
            .field("files", &self.root().own_files())
            .field("elements", &self.elements().count())
            .field("waiting", &self.waiting().count())
            .field("log", &self.log().len())
            .finish_non_exhaustive()
    }
}

fn zeros(size: usize) -> Box<[u64]> {
    vec![0; size].into()
}

/// The answer of an accepted call.
fn accepted(code: u64, answer: [u64; ANSWER_SIZE]) -> Result<[u64; ANSWER_SIZE], Refusal> {
    if code == ffi::ACCEPTED {
        Ok(answer)
    } else {
        Err(Refusal::from_answer(code, answer))
    }
}

#[cfg(test)]
mod tests {
    use super::*;
    use crate::tree::Item;

    const DECKS: &str = concat!(env!("CARGO_MANIFEST_DIR"), "/../../crates/decks/data");

    #[test]
    fn mark_is_the_librarys() {
        let mut marks = 0;
        let list = std::fs::read_to_string(format!("{DECKS}/list")).unwrap();
        for name in list.lines().filter(|line| !line.contains(' ')) {
            let deck = std::fs::read(format!("{DECKS}/{name}.deck")).unwrap();
            let Ok(mut model) = Model::load(&deck) else {
                continue;
            };
            for file in 0..64 {
                if model.merge(FileId(file)).is_ok() {
                    let mut answer = [9; ANSWER_SIZE];
                    let code = ffi::mark(
                        model.deck.as_bytes(),
                        &model.schema,
                        &model.elements,
                        &model.model,
                        &model.log,
                        &mut answer,
                    );
                    let mark = model.mark().get();
                    assert_eq!((code, answer), (ffi::ACCEPTED, [mark, 0, 0, 0]));
                    marks += 1;
                }
            }
        }
        assert!(marks > 100, "{marks}");
    }

    /// No load and no call leaves such tables; they are read without a panic, and refused.
    fn read_all(mut model: Model) {
        for number in (0..2000).chain([u64::MAX - 1, u64::MAX]) {
            if let Some(element) = model.element(ElementId(number)) {
                let _ = (element.parent(), element.own_files().iter().count());
                let _ = (element.effective_files(), element.ancestors().count());
                let _ = (element.path(), element.item_name(), element.definition());
                let _ = (element.text(), element.position(), element.element_type());
                for item in element.items() {
                    if let Item::Element(child) = item {
                        let _ = (child.name(), child.items().len(), child.parent());
                    }
                }
                // Lists may go round in a circle.
                let _ = element.subtree().take(100).count();
            }
        }
        let _ = (model.waiting().count(), model.files().count());
        let _ = (model.log().count(), model.mark());
        let _ = model.standing_merges().count();
        let schema = model.schema();
        for of_type in schema.types() {
            let _ = (of_type.to_string(), schema.get(of_type.id()));
        }
        let _ = (schema.groups().count(), schema.rows().count());
        let _ = model.root().palette(Version(0)).take(2).count();
        assert_eq!(model.model_lines(), "");
        assert_eq!(model.trees_lines(), "");
        assert_eq!(model.log_lines(), "");
        assert_eq!(model.merge(FileId(1)), Err(Refusal::BadTables));
        assert_eq!(model.rollback(Mark::START), Err(Refusal::BadTables));
        let range = model.range(ElementId::ROOT, Name(0), Version(0));
        assert_eq!(range, Err(Refusal::BadTables));
    }

    fn tables_of(mut number: impl FnMut() -> u64) -> Model {
        let mut table = |size| (0..size).map(|_| number()).collect();
        Model {
            deck: "x".repeat(1000).into(),
            schema: table(layout::schema::SIZE),
            elements: table(layout::elements::SIZE),
            model: table(layout::model::SIZE),
            log: table(layout::log::SIZE),
        }
    }

    #[test]
    fn tables_of_any_numbers_are_read() {
        for number in [0, 1, 2, 1023, 1024, 65536, u64::MAX - 1, u64::MAX] {
            read_all(tables_of(|| number));
        }
        let mut state = 1_u64;
        for shift in [0, 32, 53, 60] {
            read_all(tables_of(|| {
                state ^= state << 13;
                state ^= state >> 7;
                state ^= state << 17;
                state >> shift
            }));
        }
    }

    #[test]
    fn tables_of_other_sizes_are_read() {
        let mut model = tables_of(|| 1);
        for size in [0, 1, 100, 1_000_000] {
            model.deck = Box::default();
            model.schema = vec![1; size].into();
            model.elements = vec![1; size].into();
            model.model = vec![1; size].into();
            model.log = vec![1; size].into();
            read_all(model.clone());
        }
    }
}
