//! The inputs: the same at each run.

pub struct Text(Vec<u8>);
impl Text {
    pub fn new(bytes: Vec<u8>) -> Text {
        Text(bytes)
    }
    #[inline]
    pub fn bytes(&self) -> &[u8] {
        &self.0
    }
}

pub struct Case {
    pub patterns: Vec<Text>,
    pub values: Vec<Text>,
    pub mode: u8,
}

impl Case {
    /// Ends each text with a NUL, as Git's matcher reads them.
    pub fn end_with_nul(&mut self) {
        self.patterns.iter_mut().chain(&mut self.values).for_each(|text| text.0.push(0));
    }
}

pub struct Load {
    pub name: &'static str,
    pub cases: Vec<Case>,
}

pub const PATH: u8 = 1;
pub const FOLD: u8 = 2;

struct Rng(u64);
impl Rng {
    fn below(&mut self, n: usize) -> usize {
        self.0 = self.0.wrapping_mul(6364136223846793005).wrapping_add(1442695040888963407);
        ((self.0 >> 33) as usize) % n
    }
    fn of<'a>(&mut self, xs: &[&'a str]) -> &'a str {
        xs[self.below(xs.len())]
    }
}

const DIRS: &[&str] = &["src", "lib", "tests", "docs", "target", "build", "node_modules", "vendor", "include", "cmake", "third_party", "assets", "images", ".github", "workflows", "components", "utils", "core", "internal", "pkg", "cmd", "api", "v1", "dist", "__pycache__", "fixtures", "data", "examples", "benches", "scripts"];
const STEMS: &[&str] = &["main", "index", "lib", "mod", "README", "Makefile", "config", "test_parser", "user_controller", "helper", "utils", "app", "package", "Cargo", "setup", "module-17", "report_2024", "logo", "a", "x86_64", "error", "debug", "server.min", "style.bundle", ".env", ".gitignore", "notes", "CHANGELOG", "libfoo", "table"];
const EXTS: &[&str] = &["rs", "c", "h", "o", "py", "pyc", "js", "min.js", "css", "html", "md", "txt", "log", "json", "toml", "lock", "png", "jpg", "so.1", "a", "exe", "swp", "bak", "class", "tar.gz", "yml", "tmp", "orig", "cpp", "go"];

pub fn paths(n: usize) -> Vec<Vec<u8>> {
    let mut r = Rng(42);
    (0..n)
        .map(|_| {
            let mut s = String::new();
            for _ in 0..r.below(6) {
                s.push_str(r.of(DIRS));
                s.push('/');
            }
            s.push_str(r.of(STEMS));
            if r.below(8) != 0 {
                s.push('.');
                s.push_str(r.of(EXTS));
            }
            s.into_bytes()
        })
        .collect()
}

/// As the texts of patterns of ignore files stand after parsing: no `!`, no leading or trailing slash.
pub const IGNORES: &[&str] = &[
    "*.o", "*.a", "*.so", "*.so.*", "*.pyc", "*.py[cod]", "*$py.class", "*.log", "*.log.*", "*.swp", "*.swo", "*~", ".*.sw?", "*.tmp", "*.bak", "*.orig", "*.rej", "*.class", "*.jar", "*.war", "*.exe", "*.dll", "*.dylib", "*.out", "*.app", "*.i*86", "*.x86_64", "*.hex", "*.d", "*.slo", "*.lo", "*.ko", "*.obj", "*.elf", "*.gch", "*.pch", "*.mod", "*.cmd", "*.min.js", "*.map", "*.tsbuildinfo", "*.egg-info", "*.egg", "*.manifest", "*.spec", "*.cover", "*.sage.py", "npm-debug.log*", "yarn-debug.log*", "lerna-debug.log*", ".env", ".env.*", ".env.local", "node_modules", "target", "build", "dist", "__pycache__", ".DS_Store", "Thumbs.db", "Cargo.lock", "[Bb]in", "[Oo]bj", "[Dd]ebug*", "[Rr]elease*", "x64", "[._]*.s[a-v][a-z]", "[._]*.sw[a-p]", "[0-9]*.txt", "*.[ch]pp", "*_test.go", "test_*.py", "report_????", "lib*.a", "**/target", "**/*.rs.bk", "**/node_modules/*", "**/__pycache__/**", "**/*.log", "**/fixtures/**/*.json", "docs/_build", "docs/**/*.md", "src/**/*.o", "src/*.rs", "src/*/mod.rs", "vendor/**", "vendor/*/*.c", "build/*/*.o", "images/*.[jp][pn]g", ".github/workflows/*.yml", "tests/fixtures/*", "third_party/**/CMakeLists.txt", "a/**/b/**/c", "lib/python*/site-packages", "pkg/**/*_string.go", "assets/**/*.min.*", "components/*/index.js", "*/internal/*", "**/v1/**/api/*", "cmd/*/main.go",
];

fn own(xs: &[&str]) -> Vec<Vec<u8>> {
    xs.iter().map(|x| x.as_bytes().to_vec()).collect()
}

fn base(p: &[u8]) -> Vec<u8> {
    p[p.iter().rposition(|b| *b == b'/').map_or(0, |i| i + 1)..].to_vec()
}

fn case(patterns: &[Vec<u8>], values: &[Vec<u8>], mode: u8) -> Case {
    let texts = |xs: &[Vec<u8>]| xs.iter().cloned().map(Text::new).collect();
    Case { patterns: texts(patterns), values: texts(values), mode }
}

fn one(p: String, v: String, mode: u8) -> Case {
    case(&[p.into_bytes()], &[v.into_bytes()], mode)
}

pub fn loads() -> Vec<Load> {
    let paths = paths(1000);
    let bases: Vec<_> = paths.iter().map(|p| base(p)).collect();
    let deep: Vec<_> = own(IGNORES).into_iter().filter(|p| p.contains(&b'/')).collect();
    let flat: Vec<_> = own(IGNORES).into_iter().filter(|p| !p.contains(&b'/')).collect();
    let simple: Vec<_> = own(IGNORES).into_iter().filter(|p| !p.contains(&b'[') && !p.contains(&b'\\')).collect();
    let both = |mode| {
        vec![
            case(&deep, &paths, mode),
            case(&flat, &bases, mode),
        ]
    };
    vec![
        // as Git matches: a pattern with a slash on the whole path, any other on the last part
        Load { name: "ignore", cases: both(PATH) },
        Load { name: "ignore_fold", cases: both(PATH | FOLD) },
        // a hit every time: `**/*.EXT` and `*.EXT` of the path's own ending
        Load {
            name: "hits",
            cases: paths
                .iter()
                .flat_map(|p| {
                    let s = String::from_utf8(p.clone()).unwrap();
                    let e = s.rsplit('.').next().unwrap().rsplit('/').next().unwrap().to_owned();
                    let b = String::from_utf8(base(p)).unwrap();
                    [one(format!("**/*{e}"), s.clone(), PATH), one(format!("*{e}"), b, PATH), one(s.clone(), s, PATH)]
                })
                .collect(),
        },
        Load { name: "plain", cases: vec![case(&simple, &paths, 0)] },
        // (the values end as the patterns do, so that a look at the last byte is no answer)
        Load { name: "hostile_plain", cases: vec![one("*a*a*a*a*xb".into(), "a".repeat(199) + "b", 0)] },
        Load { name: "hostile_stars", cases: vec![one("*a".repeat(60) + "xb", "a".repeat(199) + "b", 0)] },
        // a long look at each place
        Load { name: "square_plain", cases: vec![one(format!("*{}xb", "a".repeat(50)), "a".repeat(999) + "b", 0)] },
        Load {
            name: "hostile_path",
            cases: vec![
                one("*/".repeat(30) + "x", "a/".repeat(30) + "yx", PATH),
                one("**/".repeat(4) + "x", "a/".repeat(10) + "yx", PATH),
                one("**/*a*a*a*xb".into(), "aaaa/".repeat(10) + "b", PATH),
            ],
        },
        // the time of an engine that tries again after each failure doubles with each `**/`
        Load { name: "hostile_dirs", cases: vec![one("**/".repeat(10) + "x", "a/".repeat(10) + "yx", PATH)] },
        Load { name: "long_star", cases: vec![one("*".into(), "a".repeat(100_000), 0)] },
        Load { name: "long_star_path", cases: vec![one("*".into(), "a".repeat(100_000), PATH)] },
        Load { name: "long_miss", cases: vec![one("*xb".into(), "a".repeat(99_999) + "b", 0)] },
        Load { name: "long_miss_path", cases: vec![one("*xb".into(), "a".repeat(99_999) + "b", PATH)] },
        Load { name: "long_hit", cases: vec![one("*b".into(), "a".repeat(99_999) + "b", 0)] },
        Load { name: "long_literal", cases: vec![one("a".repeat(100_000), "a".repeat(100_000), 0)] },
        Load { name: "long_literal_fold", cases: vec![one("aB".repeat(50_000), "Ab".repeat(50_000), FOLD)] },
        Load { name: "set_run", cases: vec![one("[a-c]".repeat(16_384), "b".repeat(16_384), 0)] },
        Load { name: "class_run", cases: vec![one("[[:alnum:]]".repeat(16_384), "b".repeat(16_384), 0)] },
        Load { name: "members", cases: vec![members(512, 64)] },
        // each star takes a part, and the next part doesn't begin as `yx`
        Load { name: "star_parts", cases: vec![one("*/".repeat(5) + "yx", "a/".repeat(30) + "x", PATH)] },
    ]
}

/// A set of so many `[:` that begin no class, tried at each place of a value. Unclosed it matches nothing.
fn sets(classes: usize, end: &str, places: usize) -> Case {
    one(format!("*[{}{end}", "[:".repeat(classes)), "b".repeat(places), 0)
}

/// A set of so many members, none of which is in the value, tried at each of its places.
fn members(count: usize, places: usize) -> Case {
    let all: String = ('c'..='z').cycle().take(count).collect();
    one(format!("*[{all}]?"), "b".repeat(places), 0)
}

/// Hostile input of a size: stars that each could end anywhere, double stars that each could end at any slash, and sets that are
/// long, or tried at many places. And values of a size.
pub fn hostile(load: &str, size: usize) -> Case {
    match load {
        "stars" => one("*a".repeat(size) + "xb", "a".repeat(8 * size) + "b", 0),
        "dirs" => one("**/".repeat(size) + "x", "a/".repeat(size) + "yx", PATH),
        "sets_by_pattern" => sets(size, "a]?", 50),
        "sets_by_value" => sets(50, "a]?", size),
        "open_sets_by_pattern" => sets(size, "a?", 50),
        "open_sets_by_value" => sets(50, "a?", size),
        "brackets" => one("[".repeat(size), "[".repeat(size), 0),
        "members_by_pattern" => members(size, 1_000),
        "members_by_value" => members(500, size),
        // what follows the star stands nowhere
        "miss" => one("*xb".into(), "a".repeat(size - 1) + "b", 0),
        "miss_path" => one("*xb".into(), "a".repeat(size - 1) + "b", PATH),
        "literal" => one("a".repeat(size), "a".repeat(size), 0),
        _ => panic!("miss | miss_path | literal | stars | dirs | brackets | sets, open_sets or members, and _by_pattern or _by_value"),
    }
}

/// Pattern lines as they stand in ignore files, with slashes at their ends.
pub const LINES: &[&str] = &[
    "/target", "/build/", "/dist", "node_modules/", "/.vscode/", "*.egg-info/", "docs/_build/", "/vendor/**/", "!keep.log", "!/src/*.rs", "\\#notes", "/Cargo.lock", "/config.json", "src/main.rs", "tests/test_parser.py",
];

/// Lines and paths for the shortcuts of a parsed pattern, with whether a path is a folder left out.
pub fn lines() -> Vec<Vec<u8>> {
    let mut all = own(IGNORES);
    all.extend(own(LINES));
    all
}

/// Random short patterns and values over bytes that mean something, all four modes.
pub fn fuzz(seed: u64) -> impl Iterator<Item = (Text, Text, u8)> {
    let mut r = Rng(seed);
    std::iter::from_fn(move || {
        let p_bytes: &[u8] = if r.below(2) == 0 { b"ab/**??" } else { b"aAbB/**?[[]]!^-\\::" };
        let mut text = |r: &mut Rng, from: &[u8], most: usize| {
            let n = r.below(most + 1);
            let mut s: Vec<u8> = (0..n).map(|_| from[r.below(from.len())]).collect();
            if from.contains(&b'[') && r.below(8) == 0 {
                let at = r.below(s.len() + 1);
                let class = ["[:alpha:]", "[:digit:]", "[:upper:]", "[[:lower:]]", "[[:nope:]]", "**/", "/**"][r.below(7)];
                s.splice(at..at, class.bytes());
            }
            Text::new(s)
        };
        let p = text(&mut r, p_bytes, 9);
        let v = text(&mut r, b"aaAbB//-", 8);
        Some((p, v, r.below(4) as u8))
    })
}
