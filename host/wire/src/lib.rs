//! What the program and its GDAL process say to each other, over the process's standard input and output. A message is a list of
//! fields; the elements of a raster follow a message as plain bytes, in pieces. The GDAL process may be ended at any point by a hostile
//! file: whoever reads here believes no length beyond the bounds below.

use std::io::{self, Read, Write};

/// Longest message and most fields of one: far above what any raster needs.
const MOST_BYTES: usize = 1 << 26;
const MOST_FIELDS: usize = 1 << 20;

fn invalid(what: &str) -> io::Error {
    io::Error::new(io::ErrorKind::InvalidData, what)
}

pub fn send<S: AsRef<str>>(out: &mut impl Write, fields: &[S]) -> io::Result<()> {
    let mut bytes = (fields.len() as u32).to_le_bytes().to_vec();
    for field in fields {
        bytes.extend((field.as_ref().len() as u32).to_le_bytes());
        bytes.extend(field.as_ref().as_bytes());
    }
    out.write_all(&bytes)?;
    out.flush()
}

pub fn receive(input: &mut impl Read) -> io::Result<Vec<String>> {
    let count = number(input)?;
    if count > MOST_FIELDS {
        return Err(invalid("too many fields"));
    }
    let mut left = MOST_BYTES;
    (0..count)
        .map(|_| {
            let len = number(input)?;
            left = left.checked_sub(len).ok_or_else(|| invalid("a message that is too long"))?;
            let mut field = vec![0; len];
            input.read_exact(&mut field)?;
            String::from_utf8(field).map_err(|_| invalid("a field that is not text"))
        })
        .collect()
}

fn number(input: &mut impl Read) -> io::Result<usize> {
    let mut four = [0; 4];
    input.read_exact(&mut four)?;
    Ok(u32::from_le_bytes(four) as usize)
}

/// A piece of a raster's bytes; an empty piece ends them.
pub fn send_piece(out: &mut impl Write, bytes: &[u8]) -> io::Result<()> {
    out.write_all(&(bytes.len() as u32).to_le_bytes())?;
    out.write_all(bytes)
}

/// In place of a piece's length: the bytes end here by an error, and a message says which.
const BROKEN: u32 = u32::MAX;

pub fn send_broken(out: &mut impl Write, why: &str) -> io::Result<()> {
    out.write_all(&BROKEN.to_le_bytes())?;
    send(out, &[why])
}

/// The pieces of a raster as one stream of bytes.
pub struct Pieces<'a, R: Read> {
    input: &'a mut R,
    left: usize,
    ended: bool,
    /// Why the bytes ended early.
    pub broken: Option<String>,
}

impl<'a, R: Read> Pieces<'a, R> {
    pub fn new(input: &'a mut R) -> Self {
        Pieces { input, left: 0, ended: false, broken: None }
    }
}

impl<R: Read> Read for Pieces<'_, R> {
    fn read(&mut self, bytes: &mut [u8]) -> io::Result<usize> {
        while self.left == 0 && !self.ended {
            let len = number(self.input)?;
            if len == BROKEN as usize {
                self.ended = true;
                self.broken = receive(self.input)?.pop();
            } else {
                self.left = len;
                self.ended = len == 0;
            }
        }
        if self.left == 0 || bytes.is_empty() {
            return Ok(0);
        }
        let most = bytes.len().min(self.left);
        let got = self.input.read(&mut bytes[..most])?;
        if got == 0 {
            return Err(io::ErrorKind::UnexpectedEof.into());
        }
        self.left -= got;
        Ok(got)
    }
}

/// A message of named fields.
#[derive(Clone, Debug, Default, PartialEq)]
pub struct Fields(Vec<String>);

impl Fields {
    pub fn from_list(list: Vec<String>) -> Self {
        Fields(list)
    }

    pub fn list(&self) -> &[String] {
        &self.0
    }

    pub fn put(&mut self, name: &str, value: impl ToString) {
        self.0.push(name.to_string());
        self.0.push(value.to_string());
    }

    pub fn all<'a>(&'a self, name: &'a str) -> impl Iterator<Item = &'a str> + 'a {
        self.0.chunks_exact(2).filter(move |pair| pair[0] == name).map(|pair| pair[1].as_str())
    }

    pub fn get(&self, name: &str) -> Option<&str> {
        self.0.chunks_exact(2).find(|pair| pair[0] == name).map(|pair| pair[1].as_str())
    }

    pub fn text(&self, name: &str) -> String {
        self.get(name).unwrap_or_default().to_string()
    }

    pub fn number<T: std::str::FromStr>(&self, name: &str) -> io::Result<T> {
        self.get(name).and_then(|word| word.parse().ok()).ok_or_else(|| invalid(&format!("no number {name}")))
    }
}

/// Where a part of a raster stands.
#[derive(Clone, Copy, Debug, PartialEq, Eq)]
pub struct Part {
    pub row: usize,
    pub col: usize,
    pub rows: usize,
    pub cols: usize,
}

/// A coordinate reference system in words that travel: WKT, the order of its axes in the data, its epoch (0 for none), and its name.
#[derive(Clone, Debug, Default, PartialEq)]
pub struct Crs {
    pub wkt: String,
    pub axes: Vec<i32>,
    pub epoch: f64,
    pub name: String,
}

/// A ground control point.
#[derive(Clone, Debug, PartialEq)]
pub struct Gcp {
    pub id: String,
    pub pixel: f64,
    pub line: f64,
    pub x: f64,
    pub y: f64,
    pub z: f64,
}

/// Where a raster lies on the ground, as its file says it.
#[derive(Clone, Debug, Default, PartialEq)]
pub struct Georeference {
    /// x = t0 + col t1 + row t2, y = t3 + col t4 + row t5, from the corner of a pixel.
    pub transform: Option<[f64; 6]>,
    pub crs: Option<Crs>,
    pub gcps: Vec<Gcp>,
    pub gcp_crs: Option<Crs>,
    /// `Area` or `Point`, where the file says which.
    pub area_or_point: Option<String>,
}

impl Georeference {
    /// Whether it places anything on the ground.
    pub fn is_there(&self) -> bool {
        self.transform.is_some() || !self.gcps.is_empty()
    }

    /// Of the raster that begins `row` rows below and `col` columns right of this one (left and above where negative).
    pub fn moved(&self, row: f64, col: f64) -> Self {
        let mut moved = self.clone();
        if let Some(t) = &mut moved.transform {
            t[0] += col * t[1] + row * t[2];
            t[3] += col * t[4] + row * t[5];
        }
        for point in &mut moved.gcps {
            point.pixel -= col;
            point.line -= row;
        }
        moved
    }

    pub fn put(&self, fields: &mut Fields) {
        if let Some(t) = self.transform {
            fields.put("transform", numbers(&t));
        }
        for (name, crs) in [("crs", &self.crs), ("gcp-crs", &self.gcp_crs)] {
            if let Some(crs) = crs {
                fields.put(&format!("{name}-wkt"), &crs.wkt);
                fields.put(&format!("{name}-axes"), crs.axes.iter().map(i32::to_string).collect::<Vec<_>>().join(" "));
                fields.put(&format!("{name}-epoch"), crs.epoch);
                fields.put(&format!("{name}-name"), &crs.name);
            }
        }
        for p in &self.gcps {
            fields.put("gcp", format!("{} {}", numbers(&[p.pixel, p.line, p.x, p.y, p.z]), p.id));
        }
        if let Some(word) = &self.area_or_point {
            fields.put("area-or-point", word);
        }
    }

    pub fn get(fields: &Fields) -> io::Result<Self> {
        let transform = match fields.get("transform") {
            Some(words) => Some(floats(words)?.try_into().map_err(|_| invalid("not six numbers"))?),
            None => None,
        };
        let crs = |name: &str| match fields.get(&format!("{name}-wkt")) {
            Some(wkt) => Ok(Some(Crs {
                wkt: wkt.to_string(),
                axes: fields.text(&format!("{name}-axes")).split_whitespace().filter_map(|word| word.parse().ok()).collect(),
                epoch: fields.number(&format!("{name}-epoch"))?,
                name: fields.text(&format!("{name}-name")),
            })),
            None => Ok::<_, io::Error>(None),
        };
        let gcps = fields
            .all("gcp")
            .map(|words| {
                let mut parts = words.splitn(6, ' ');
                let five = floats(&parts.by_ref().take(5).collect::<Vec<_>>().join(" "))?;
                let [pixel, line, x, y, z] = five[..] else { return Err(invalid("not five numbers")) };
                Ok(Gcp { id: parts.next().unwrap_or_default().to_string(), pixel, line, x, y, z })
            })
            .collect::<io::Result<_>>()?;
        Ok(Georeference {
            transform,
            crs: crs("crs")?,
            gcps,
            gcp_crs: crs("gcp-crs")?,
            area_or_point: fields.get("area-or-point").map(str::to_string),
        })
    }
}

/// Digits that read back to the same floats.
pub fn numbers(list: &[f64]) -> String {
    list.iter().map(f64::to_string).collect::<Vec<_>>().join(" ")
}

pub fn floats(words: &str) -> io::Result<Vec<f64>> {
    words.split_whitespace().map(|word| word.parse().map_err(|_| invalid("not a number"))).collect()
}

#[cfg(test)]
mod tests {
    use super::*;

    #[test]
    fn a_georeference_reads_back() {
        let crs = Some(Crs { wkt: "GEOGCRS[\"a b\"]".into(), axes: vec![2, 1], epoch: 2021.3, name: "a".into() });
        let gcp = Gcp { id: "one two".into(), pixel: 0.1, line: -3.0, x: 1e300, y: f64::MIN_POSITIVE, z: -0.0 };
        let whole = Georeference {
            transform: Some([0.1, 10.0, -0.0, 5e6, 1e-300, -10.0]),
            crs: crs.clone(),
            gcps: vec![gcp; 3],
            gcp_crs: crs,
            area_or_point: Some("Point".into()),
        };
        for georeference in [whole, Georeference::default()] {
            let mut fields = Fields::default();
            georeference.put(&mut fields);
            let mut bytes = Vec::new();
            send(&mut bytes, fields.list()).unwrap();
            let read = Fields::from_list(receive(&mut &bytes[..]).unwrap());
            assert_eq!(Georeference::get(&read).unwrap(), georeference);
            for cut in 0..bytes.len() {
                assert!(receive(&mut &bytes[..cut]).is_err());
            }
        }
    }

    #[test]
    fn a_moved_georeference_names_the_same_ground() {
        let whole = Georeference { transform: Some([100.0, 10.0, 1.0, 900.0, 2.0, -20.0]), ..Default::default() };
        let t = whole.moved(3.0, 7.0).transform.unwrap();
        assert_eq!(t, [100.0 + 70.0 + 3.0, 10.0, 1.0, 900.0 + 14.0 - 60.0, 2.0, -20.0]);
        assert_eq!(whole.moved(3.0, 7.0).moved(-3.0, -7.0), whole);
    }

    #[test]
    fn pieces_end_as_they_were_sent() {
        let mut bytes = Vec::new();
        send_piece(&mut bytes, &[1, 2, 3]).unwrap();
        send_piece(&mut bytes, &[4]).unwrap();
        let mut broken = bytes.clone();
        send_piece(&mut bytes, &[]).unwrap();
        let mut found = Vec::new();
        Pieces::new(&mut &bytes[..]).read_to_end(&mut found).unwrap();
        assert_eq!(found, [1, 2, 3, 4]);
        send_broken(&mut broken, "why").unwrap();
        let mut input = &broken[..];
        let mut pieces = Pieces::new(&mut input);
        found.clear();
        pieces.read_to_end(&mut found).unwrap();
        assert_eq!((found, pieces.broken), (vec![1, 2, 3, 4], Some("why".to_string())));
        for cut in 0..bytes.len() {
            assert!(Pieces::new(&mut &bytes[..cut]).read_to_end(&mut Vec::new()).is_err());
        }
    }
}
