//! Makes each allocation of the library fail in turn, in each call that allocates. The call must return `OutOfMemory`, and must change
//! nothing.
//!
//! Needs the shared library, and tests/python/refuse.c in `LD_PRELOAD`.
use std::ffi::CString;
use std::os::raw::{c_char, c_long, c_void};
use std::ptr::null_mut;

use hordguli::{
    base_level, break_reasons, breaks, layout_into, levels, reasons, row, row_runs, BaseDirection,
    CharPos, Direction, Edge, Error, Level, Options, Print, Session, Tables, UnicodeVersion,
};

extern "C" {
    fn dlsym(library: *mut c_void, name: *const c_char) -> *mut c_void;
}

/// Returns the function that says which allocation fails.
fn refuse() -> Option<unsafe extern "C" fn(c_long)> {
    let name = CString::new("refuse").ok()?;
    // SAFETY: the name ends with a NUL, and a null pointer stands for all libraries. A function with this
    // name is that of refuse.c, which has this type.
    unsafe {
        let found = dlsym(null_mut(), name.as_ptr());
        std::mem::transmute(found)
    }
}

struct Counts {
    refuse: unsafe extern "C" fn(c_long),
    passed: usize,
    failed: usize,
}

impl Counts {
    fn count(&mut self, name: &str, holds: bool) {
        self.passed += usize::from(holds);
        self.failed += usize::from(!holds);
        if !holds {
            println!("refuse: {name} does not hold");
        }
    }

    /// Makes a call with each allocation failing, on a new state each time, until it succeeds. After an error,
    /// the result of `look` must be unchanged.
    fn each<S, T>(
        &mut self,
        name: &str,
        new: impl Fn() -> S,
        look: impl Fn(&S) -> String,
        call: impl Fn(&mut S) -> Result<T, Error>,
    ) {
        for number in 1.. {
            let mut state = new();
            let before = look(&state);
            // SAFETY: the function has no requirements.
            unsafe { (self.refuse)(number) };
            let result = call(&mut state);
            // SAFETY: the function has no requirements.
            unsafe { (self.refuse)(0) };
            match result {
                Ok(_) => {
                    self.count(&format!("{name}: an allocation"), number > 1);
                    break;
                }
                Err(error) => {
                    self.count(&format!("{name}: {error}"), error == Error::OutOfMemory);
                    self.count(
                        &format!("{name}: what is unchanged"),
                        look(&state) == before,
                    );
                }
            }
        }
    }

    fn each_of_session<T>(&mut self, name: &str, call: impl Fn(&mut Session) -> Result<T, Error>) {
        let tables = Tables::builtin().unwrap();
        let options = Options::new().tab_width(4);
        let new = || {
            Session::new(
                &tables,
                "a \u{5d0}\u{1f1e9}\u{1f1ea}\u{1f1ea} (c)\ne\u{301} f",
                5,
                options,
            )
            .unwrap()
        };
        let look = |session: &Session| {
            let lines = session.lines_to_string(.., Print::DEFAULT | Print::LEVELS);
            format!("{:?} {:?}", session.text(..), lines)
        };
        self.each(name, new, look, call);
    }

    fn each_of_measured<T>(&mut self, name: &str, call: impl Fn(&mut Session) -> Result<T, Error>) {
        let tables = Tables::builtin().unwrap();
        let text = "a \u{5d0}\u{5d1} (c)\ne f\n";
        let new = || {
            let mut session = Session::open_measured(&tables, text, 50, Options::new()).unwrap();
            session.set_advances(CharPos(0), &[10; 8]).unwrap();
            session
        };
        let look = |session: &Session| {
            let lines = session.lines(..).map(|it| (it.range(), it.columns()));
            format!("{:?} {:?}", session.counts(), lines.collect::<Vec<_>>())
        };
        self.each(name, new, look, call);
    }

    fn each_of_tables<T>(&mut self, name: &str, call: impl Fn(&Tables) -> Result<T, Error>) {
        let look = |tables: &Tables| format!("{tables:?}");
        self.each(
            name,
            || Tables::builtin().unwrap(),
            look,
            |tables| call(tables),
        );
    }
}

fn sessions(counts: &mut Counts) {
    let (at, range) = (CharPos(3), CharPos(1)..CharPos(8));
    counts.each_of_session("insert", |it| it.insert(at, "x\n\u{5d2} y"));
    counts.each_of_session("delete", |it| it.delete(range.clone()));
    counts.each_of_session("replace", |it| it.replace(range.clone(), "\u{5d2}\n"));
    counts.each_of_session("set_width", |it| it.set_width(3));
    counts.each_of_measured("set_measured_width", |it| it.set_measured_width(30));
    counts.each_of_measured("set_advances", |it| it.set_advances(at, &[30; 8]));
    counts.each_of_measured("join", |it| it.delete(CharPos(8)..CharPos(9)));
    counts.each_of_session("text", |it| it.text(..));
    counts.each_of_session("lines_to_string", |it| {
        it.lines_to_string(.., Print::DEFAULT)
    });
    counts.each_of_session("visual", |it| it.line(0)?.visual());
    counts.each_of_session("clusters", |it| Ok(it.line(0)?.clusters()?.len()));
    counts.each_of_session("cluster", |it| it.cluster(at));
    counts.each_of_session("word", |it| it.word(at));
    counts.each_of_session("edge_caret", |it| it.edge_caret(Edge::before(at)));
    counts.each_of_session("step", |it| it.step(Edge::before(at), Direction::Right));
    counts.each_of_session("edge_at", |it| it.edge_at(0, 3));
    counts.each_of_session("nearest_edge", |it| it.nearest_edge(0, 3));
}

fn tables(counts: &mut Counts) {
    let chars = ['a', '(', '\u{5d0}', '\u{5d1}', ')', ' '];
    let direction = BaseDirection::WeakLtr;
    let options = Options::new().reorder_clusters(true);
    let given = [Level::RTL; 6];
    let version = UnicodeVersion::V17_0;
    counts.each("builtin", || (), |_| String::new(), |_| Tables::builtin());
    let open = |_: &mut ()| Tables::builtin_with_version(version);
    counts.each("builtin_with_version", || (), |_| String::new(), open);
    counts.each_of_tables("open", |it| Session::new(it, "a \u{5d0}\nb", 80, options));
    counts.each_of_tables("open_measured", |it| {
        Session::open_measured(it, "a \u{5d0}\nb", 80, options)
    });
    counts.each_of_tables("layout_into", |it| {
        let mut buffer = String::from("> ");
        let print = Print::DEFAULT;
        let laid_out = layout_into(it, "a \u{5d0}\nb", 80, options, print, &mut buffer);
        assert!(laid_out.is_ok() || buffer == "> ");
        laid_out
    });
    counts.each_of_tables("base_level", |it| base_level(it, &chars, direction));
    counts.each_of_tables("levels", |it| levels(it, &chars, direction));
    counts.each_of_tables("breaks", |it| breaks(it, &chars, options));
    counts.each_of_tables("reasons", |it| reasons(it, &chars, direction));
    counts.each_of_tables("break_reasons", |it| break_reasons(it, &chars, options));
    counts.each_of_tables("row", |it| row(it, &chars, &given, Level::LTR, options));
    counts.each_of_tables("row_runs", |it| {
        Ok(row_runs(it, &chars, &given, Level::LTR)?.len())
    });
}

fn main() {
    let refuse = refuse().expect("refuse.c is not preloaded");
    let mut counts = Counts {
        refuse,
        passed: 0,
        failed: 0,
    };
    sessions(&mut counts);
    tables(&mut counts);
    println!("{} passed, {} failed", counts.passed, counts.failed);
}
