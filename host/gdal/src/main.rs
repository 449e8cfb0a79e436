//! quicklook-gdal: reads and writes rasters by GDAL for the program `quicklook`, as a process of its own, so that a file on which one of
//! GDAL's hundred decoders crashes, loops or asks for all memory ends this process and nothing else. It answers requests from standard
//! input on standard output (the crate `wire`) until its input ends.

mod c;
mod dataset;
mod ground;
mod places;
mod read;
mod whole;
mod write;

use std::io::{self, BufReader, BufWriter, Write};
use wire::Fields;

/// Address space (libraries take their part of it), memory and processor time of the process: room for the largest scene in the widest
/// type several times over.
const MOST_ADDRESSES: u64 = 3 << 30;
const MOST_MEMORY: u64 = 1 << 30;
const MOST_SECONDS: u64 = 120;
/// Seconds of one request, waiting included: a file may be a pipe in disguise.
const LONGEST_REQUEST: u32 = 120;
/// Blocks kept: those of a whole scene of f64, so that its nodata mask does not decode them again.
const CACHE: i64 = 160 << 20;

fn main() {
    if std::env::args_os().nth(1).is_some() {
        println!("quicklook-gdal {} over {}: a part of quicklook, not run by itself", env!("CARGO_PKG_VERSION"), dataset::version());
        return;
    }
    dataset::end_with_parent();
    dataset::limit(MOST_ADDRESSES, MOST_MEMORY, MOST_SECONDS);
    dataset::start(CACHE);
    let mut input = BufReader::with_capacity(1 << 16, io::stdin().lock());
    let mut out = BufWriter::with_capacity(1 << 16, io::stdout().lock());
    // An error here is the other side's end: nobody is left to tell.
    let _ = serve(&mut input, &mut out);
}

fn serve(input: &mut impl io::Read, out: &mut impl Write) -> io::Result<()> {
    let mut open = None;
    loop {
        dataset::end_after(0);
        let mut request = wire::receive(input)?;
        dataset::end_after(LONGEST_REQUEST);
        let verb = if request.is_empty() { String::new() } else { request.remove(0) };
        let fields = Fields::from_list(request);
        match verb.as_str() {
            "open" => match read::open(&fields.text("name")) {
                Ok((dataset, told)) => {
                    open = Some(dataset);
                    answer(out, Ok(told))?;
                }
                Err(why) => answer(out, Err(why))?,
            },
            "band" => {
                let told = opened(&open).and_then(|dataset| read::band(dataset, fields.number("band").map_err(text)?));
                answer(out, told)?;
            }
            "pixels" | "mask" => {
                let asked = read::Asked::get(&fields).map_err(text);
                match opened(&open).and_then(|dataset| Ok((dataset, asked?))) {
                    Ok((dataset, asked)) => read::send(dataset, &asked, verb == "mask", out)?,
                    Err(why) => answer(out, Err(why))?,
                }
            }
            "write" => match write::raster(&fields, input)? {
                Ok(()) => write::send_raster(out)?,
                Err(why) => answer(out, Err(why))?,
            },
            "sidecar" => match write::sidecar(&fields) {
                Ok(()) => write::send_sidecar(out)?,
                Err(why) => answer(out, Err(why))?,
            },
            "places" => answer(out, places::grid(&fields))?,
            _ => answer(out, Err(format!("a request that nobody knows: {verb}")))?,
        }
    }
}

fn text(error: io::Error) -> String {
    error.to_string()
}

fn opened(open: &Option<dataset::Dataset>) -> Result<&dataset::Dataset, String> {
    open.as_ref().ok_or_else(|| "nothing is open".to_string())
}

fn answer(out: &mut impl Write, told: Result<Fields, String>) -> io::Result<()> {
    match told {
        Ok(fields) => {
            let mut list = vec!["ok".to_string()];
            list.extend_from_slice(fields.list());
            wire::send(out, &list)
        }
        Err(why) => wire::send(out, &["error", &why]),
    }
}
