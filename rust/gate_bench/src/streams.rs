//! Frames as a socket or a serial line hands them over: cut anywhere, each delivered when it is complete.
use crate::answers::Reply;
use crate::sessions::Session;

/// The most bytes of a frame that are held between two pieces.
const HELD: usize = 97;
/// What is kept behind a wrong tag.
const STOPPED: u32 = 97;
/// From here on an answer says that no frame is complete.
const WAITING: u32 = 1024;

/// A session, and what is kept of its stream of frames between two pieces. A frame is 20, a length of two bytes, and a record.
///
/// ```
/// use gate_bench::{write_record, Gate, Record, Refusal, Reply, Session, Stream, RECORD_MOST};
///
/// fn main() -> Result<(), Refusal> {
///     let mut record = [0; RECORD_MOST];
///     let size = write_record(&Record { session: 7, number: 0, gate: Gate::X(0, 0) }, &mut record)?;
///     let mut frame = vec![0x20, 0, size as u8];
///     frame.extend(&record[..size]);
///     let sent = [frame.clone(), frame].concat(); // twice: no answer came
///
///     let mut stream = Stream::new(Session::start(1, 7)?);
///     let (mut reals, mut imags) = ([1.0, 0.0], [0.0; 2]);
///     let mut replies = Vec::new();
///     for mut piece in sent.chunks(7) {
///         while let Some(reply) = stream.take(&mut piece, &mut reals, &mut imags) {
///             replies.push((reply, stream.session().count(), stream.session().mark()));
///         }
///     }
///     assert_eq!(replies, [(Reply::Taken, 1, 0x55900236), (Reply::Again(None), 1, 0x55900236)]);
///     assert_eq!((reals, stream.is_cut()), ([0.0, 1.0], false));
///     Ok(())
/// }
/// ```
#[derive(Debug)]
pub struct Stream {
    session: Session,
    kept: u32,
    held: [u8; HELD],
}

impl Stream {
    /// A stream of which nothing has come, behind the header.
    pub fn new(session: Session) -> Stream {
        Stream { session, kept: 0, held: [0; HELD] }
    }

    /// The next reply that a piece gives, and the piece behind it; `None` once the piece is used up. A piece may be empty, a part of a
    /// frame, or several frames and a part. A frame over 94 bytes is answered 8 when its last byte has come.
    pub fn take(&mut self, piece: &mut &[u8], reals: &mut [f64], imags: &mut [f64]) -> Option<Reply> {
        let mut used = 0;
        let answer = self.session.feed(&mut self.kept, &mut self.held, piece, &mut used, reals, imags);
        *piece = &piece[used..];
        (answer < WAITING).then(|| Reply::of(answer))
    }

    /// Whether a wrong tag came: then no later byte changes anything.
    pub fn is_stopped(&self) -> bool {
        self.kept == STOPPED
    }

    /// Whether an input that ends here is cut: inside a frame, or behind a wrong tag.
    pub fn is_cut(&self) -> bool {
        self.kept != 0
    }

    /// The session as it stands behind the frames that are complete: its count, its value, its mark.
    pub fn session(&self) -> &Session {
        &self.session
    }
}
