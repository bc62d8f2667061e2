use hordguli::{wrap, BytePos, Error, Options, Session, Tables};

fn main() -> Result<(), Error> {
    let tables = Tables::builtin()?;
    let lines = wrap(&tables, "hello, שלום עולם", 12, Options::new())?;
    assert_eq!(lines, ["hello, םולש", "םלוע"]);
    let mut session = Session::new(&tables, "hello, שלום\n", 80, Options::new())?;
    let damage = session.insert(BytePos(7), "(مرحبا) ")?;
    for line in session.lines(damage.new_lines) {
        println!("{}", line.visual()?);
    }
    Ok(())
}
