//! Chooses settings for a book: tries each of a short list and keeps the smallest tree; on request it searches on from there.

use crate::{progress, say};
use codebook::{build_scanned, one_level_size, Refusal, Settings, Tree, SHORT_LIST, SMALL_LIST};
use std::sync::atomic::{AtomicUsize, Ordering};
use std::sync::Mutex;
use std::thread;
use std::time::{Duration, Instant};

/// Bytes of text from which on a search is announced.
pub const LONG: usize = 1 << 21;

/// Settings, and the size of the tree that they give.
pub struct Trial {
    pub settings: Settings,
    pub size: usize,
}

/// A tree, and what was tried for it.
pub struct Chosen {
    pub settings: Settings,
    pub tree: Vec<u8>,
    /// In the order of the list, then each step of a search.
    pub tried: Vec<Trial>,
}

/// The caller's request.
pub struct Request {
    /// None to try a list.
    pub settings: Option<Settings>,
    pub counted: Vec<u8>,
    /// Layout 1: a tree without edges.
    pub small: bool,
    /// Whether to search on from the best of the list.
    pub search: bool,
    /// No warning is printed.
    pub quiet: bool,
    /// No progress is shown.
    pub silent: bool,
    /// How many are tried at a time.
    pub jobs: usize,
}

/// The tree with the settings, or the smallest tree of the layout's list; of equal ones the first.
pub fn best(text: &[u8], request: &Request) -> Result<Chosen, Refusal> {
    let list: &[(u32, u32, u32)] = if request.small { &SMALL_LIST } else { &SHORT_LIST };
    match &request.settings {
        Some(settings) => choose(text, std::slice::from_ref(settings), request),
        None => {
            let settings = |&(leaf, arity, levels): &(u32, u32, u32)| Settings { leaf, arity, levels, counted: request.counted.clone() };
            let start = Instant::now();
            let chosen = choose(text, &list.iter().map(settings).collect::<Vec<_>>(), request)?;
            if !request.search {
                return Ok(chosen);
            }
            if text.len() >= LONG && !request.quiet && !request.silent {
                say::tell(&announcement(start.elapsed()));
            }
            descend(text, chosen, request)
        }
    }
}

/// The message before a search that can take minutes: the time of the list, and the likely time of the search.
fn announcement(list: Duration) -> String {
    let seconds = list.as_secs_f64();
    format!("codebook: the list of settings took {seconds:.1} s; --best searches on, some {:.0} s more\n", (10.0 * seconds).max(1.0))
}

/// From the best settings to the best of their neighbours, as long as that makes the tree smaller.
fn descend(text: &[u8], mut chosen: Chosen, request: &Request) -> Result<Chosen, Refusal> {
    let mut seen: Vec<Settings> = chosen.tried.iter().map(|trial| trial.settings.clone()).collect();
    loop {
        let list: Vec<Settings> = neighbours(&chosen.settings).filter(|settings| !seen.contains(settings)).collect();
        if list.is_empty() {
            return Ok(chosen);
        }
        let next = choose(text, &list, request)?;
        if next.tree.len() >= chosen.tree.len() {
            return Ok(chosen);
        }
        seen.extend(list);
        let mut tried = chosen.tried;
        tried.push(Trial { settings: next.settings.clone(), size: next.tree.len() });
        chosen = Chosen { settings: next.settings, tree: next.tree, tried };
    }
}

/// Settings that differ a little in one figure, within the bounds of question 2.
fn neighbours(settings: &Settings) -> impl Iterator<Item = Settings> {
    let Settings { leaf, arity, levels, counted } = settings.clone();
    let near = |figure: u32, by: u32| [figure.saturating_sub(by), figure + by];
    let leaves = [1, 2, leaf.div_ceil(8), leaf.div_ceil(4)].into_iter().flat_map(move |by| near(leaf, by)).map(move |leaf| (leaf, arity, levels));
    let arities = near(arity, 1).into_iter().map(move |arity| (leaf, arity, levels));
    let heights = near(levels, 1).into_iter().map(move |levels| (leaf, arity, levels));
    let mut all: Vec<_> = leaves.chain(arities).chain(heights).filter(|&(leaf, arity, levels)| allowed(leaf, arity, levels)).collect();
    all.sort_unstable();
    all.dedup();
    all.into_iter().map(move |(leaf, arity, levels)| Settings { leaf, arity, levels, counted: counted.clone() })
}

fn allowed(leaf: u32, arity: u32, levels: u32) -> bool {
    let top = (1..levels).try_fold(u64::from(leaf), |block, _| block.checked_mul(u64::from(arity)));
    (1..=256).contains(&leaf) && (2..=16).contains(&arity) && (1..=8).contains(&levels) && top.is_some_and(|top| top <= codebook::MAX_TEXT as u64)
}

/// The result of a candidate: its size, and its tree if it was built.
type Tried = Result<(usize, Option<Vec<u8>>), Refusal>;

fn choose(text: &[u8], list: &[Settings], request: &Request) -> Result<Chosen, Refusal> {
    let mut sizes = Vec::new();
    let mut smallest: Option<(usize, Option<Vec<u8>>)> = None;
    for (at, tried) in all(text, list, request).into_iter().enumerate() {
        let (size, tree) = tried?;
        match &smallest {
            Some((best, _)) if sizes[*best] <= size => {}
            _ => smallest = Some((at, tree)),
        }
        sizes.push(size);
    }
    let (at, tree) = smallest.expect("the list is not empty");
    let settings = list[at].clone();
    let tree = tree.map_or_else(|| build(text, &settings, request.small), Ok)?;
    let tried = list.iter().zip(sizes).map(|(settings, size)| Trial { settings: settings.clone(), size }).collect();
    Ok(Chosen { settings, tree, tried })
}

/// Try each of the settings, with the number of threads of the request. Of the trees that are built only the smallest is kept.
fn all(text: &[u8], list: &[Settings], request: &Request) -> Vec<Tried> {
    let next = AtomicUsize::new(0);
    let results: Mutex<Vec<Option<Tried>>> = Mutex::new(list.iter().map(|_| None).collect());
    let workers = request.jobs.min(list.len());
    let costs: Vec<u64> = list.iter().map(|settings| cost(text, settings)).collect();
    progress::show("trees", &costs, request.quiet || request.silent, |progress| {
        let work = || loop {
            let at = next.fetch_add(1, Ordering::Relaxed);
            let Some(settings) = list.get(at) else { return };
            let tried = attempt(text, settings, request.small, list.len() > 1);
            enter(&mut results.lock().expect("no build panics"), at, tried);
            progress.done(at);
        };
        thread::scope(|scope| {
            for _ in 1..workers {
                // if the system gives no thread, the others do the work
                let _ = thread::Builder::new().spawn_scoped(scope, work);
            }
            work();
        });
    });
    let results = results.into_inner().expect("no build panics");
    results.into_iter().map(|tried| tried.expect("each was tried")).collect()
}

/// A tree of one level has no blocks that point: its size is computed.
fn attempt(text: &[u8], settings: &Settings, small: bool, computed: bool) -> Tried {
    let leaf = settings.leaf as usize;
    match one_level_size(text.len(), settings)? {
        Some(size) if computed && small => Ok((size - text.len().div_ceil(leaf) * 2 * leaf, None)),
        Some(size) if computed => Ok((size, None)),
        _ => build(text, settings, small).map(|tree| (tree.len(), Some(tree))),
    }
}

/// The tree, without its edges if it is to be small.
pub fn build(text: &[u8], settings: &Settings, small: bool) -> Result<Vec<u8>, Refusal> {
    let tree = build_scanned(text, settings)?.tree;
    if small {
        Tree::unchecked(&tree).without_edges()
    } else {
        Ok(tree)
    }
}

/// Enters a result, and drops all trees but the smallest.
fn enter(results: &mut [Option<Tried>], at: usize, tried: Tried) {
    results[at] = Some(tried);
    let size = |tried: &Option<Tried>| tried.as_ref().and_then(|tried| tried.as_ref().ok()).map_or(usize::MAX, |(size, _)| *size);
    let best = (0..results.len()).min_by_key(|&at| size(&results[at]));
    for (at, tried) in results.iter_mut().enumerate() {
        if let (Some(Ok((_, tree))), true) = (tried, Some(at) != best) {
            *tree = None;
        }
    }
}

/// The cost of a candidate, for the progress: the builder passes over the text once for each level above the last; short leaves make its table
/// larger than the processor's caches.
pub fn cost(text: &[u8], settings: &Settings) -> u64 {
    let passes = text.len() as u64 * u64::from(settings.levels.clamp(1, 8) - 1);
    passes + 4 * passes / u64::from(settings.leaf.max(1))
}
