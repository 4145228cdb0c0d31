//! Sinks that fail once, for ever, or write short: nothing is lost and nothing is passed over.
#![cfg(feature = "std")]

mod pictures;

use jonquilsaw::{GroupPreview, GroupWriter, PixelLayout, Plan, Preview, PreviewError, PreviewWriter, Rect};
use pictures::{bytes, cases, size, whole};
use std::collections::VecDeque;
use std::io::{self, ErrorKind, Write};

/// A sink that does as it is told, call by call, and takes everything once nothing is left to do.
#[derive(Default, Debug)]
struct Told {
    got: Vec<u8>,
    next: VecDeque<Do>,
    /// What it does when `next` is empty, if not to take everything.
    always: Option<Do>,
    flushed: bool,
}

#[derive(Clone, Copy, Debug)]
enum Do {
    Take(usize),
    Fail(ErrorKind),
}

impl Told {
    fn once(next: impl IntoIterator<Item = Do>) -> Self {
        Self { next: next.into_iter().collect(), ..Self::default() }
    }
}

impl Write for Told {
    fn write(&mut self, bytes: &[u8]) -> io::Result<usize> {
        let taken = match self.next.pop_front().or(self.always) {
            Some(Do::Fail(kind)) => return Err(kind.into()),
            Some(Do::Take(most)) => bytes.len().min(most),
            None => bytes.len(),
        };
        self.got.extend_from_slice(&bytes[..taken]);
        Ok(taken)
    }

    fn flush(&mut self) -> io::Result<()> {
        self.flushed = true;
        Ok(())
    }
}

/// A writer of a 1 by 3 picture as it is: a row for every 4 bytes.
fn writer(sink: Told) -> PreviewWriter<Told> {
    let source = size(1, 3);
    PreviewWriter::new(Preview::new(source, PixelLayout::Rgba8, Rect::of(source), source).unwrap(), sink)
}

const PICTURE: [u8; 12] = [1, 2, 3, 255, 4, 5, 6, 255, 7, 8, 9, 255];

#[test]
fn an_error_is_told_by_the_next_call_even_if_the_sink_takes_the_row_by_then() {
    type Call = fn(PreviewWriter<Told>) -> (io::Error, PreviewWriter<Told>);
    let calls: [(&str, Call); 4] = [
        ("write", |mut writer| (writer.write(&PICTURE[4..]).unwrap_err(), writer)),
        ("flush", |mut writer| (writer.flush().unwrap_err(), writer)),
        ("finish", |writer| writer.finish().unwrap_err().into_parts()),
        ("into_inner", |writer| writer.into_inner().unwrap_err().into_parts()),
    ];
    for (name, call) in calls {
        let mut first = writer(Told::once([Do::Take(2), Do::Fail(ErrorKind::StorageFull)]));
        // The first row's bytes were taken before the sink failed: the answer is how many.
        assert_eq!(first.write(&PICTURE).unwrap(), 4, "{name}");
        assert_eq!(first.get_ref().got, PICTURE[..2]);
        assert!(!first.is_done());
        let (why, mut writer) = call(first);
        assert_eq!(why.kind(), ErrorKind::StorageFull, "{name}");
        assert_eq!((writer.get_ref().got.len(), writer.preview().missing()), (2, 8), "{name}: the call takes nothing");
        // It is told once. What the sink had not got follows, and nothing is lost.
        writer.write_all(&PICTURE[4..]).unwrap();
        let (sink, has_alpha) = writer.finish().unwrap();
        assert_eq!((&sink.got[..], sink.flushed, has_alpha), (&PICTURE[..], true, false), "{name}");
    }
}

#[test]
fn an_error_before_any_byte_is_taken_is_the_call_s_own() {
    let mut writer = writer(Told::once([Do::Fail(ErrorKind::TimedOut), Do::Fail(ErrorKind::TimedOut)]));
    assert_eq!(writer.write(&PICTURE[..4]).unwrap(), 4);
    assert_eq!(writer.write(&PICTURE[4..]).unwrap_err().kind(), ErrorKind::TimedOut); // the first, kept
    assert_eq!(writer.write(&PICTURE[4..]).unwrap_err().kind(), ErrorKind::TimedOut); // the second
    writer.write_all(&PICTURE[4..]).unwrap();
    assert_eq!(writer.finish().unwrap().0.got, PICTURE);
}

#[test]
fn a_sink_that_fails_for_ever_ends_every_way_out_with_its_error() {
    let mut writer = writer(Told { always: Some(Do::Fail(ErrorKind::BrokenPipe)), ..Told::default() });
    assert_eq!(writer.write_all(&PICTURE).unwrap_err().kind(), ErrorKind::BrokenPipe);
    for _ in 0..3 {
        assert_eq!(writer.write(&PICTURE[4..]).unwrap_err().kind(), ErrorKind::BrokenPipe);
        assert_eq!(writer.flush().unwrap_err().kind(), ErrorKind::BrokenPipe);
        let refused = writer.finish().unwrap_err();
        assert_eq!(refused.error().kind(), ErrorKind::BrokenPipe);
        let refused = refused.into_inner().into_inner().unwrap_err();
        assert_eq!(refused.to_string(), io::Error::from(ErrorKind::BrokenPipe).to_string());
        writer = refused.into_inner();
    }
    assert!(writer.get_ref().got.is_empty() && !writer.is_done());
    // `?` makes an io::Error of what finish says.
    let through = || -> io::Result<()> { writer.finish().map(drop).map_err(io::Error::from) };
    assert_eq!(through().unwrap_err().kind(), ErrorKind::BrokenPipe);
}

#[test]
fn a_sink_that_takes_nothing_is_an_error_and_an_interrupted_one_is_asked_again() {
    let mut none = writer(Told::once([Do::Take(0)]));
    assert_eq!(none.write(&PICTURE[..4]).unwrap(), 4);
    assert_eq!(none.flush().unwrap_err().kind(), ErrorKind::WriteZero);
    let mut again = writer(Told::once([Do::Fail(ErrorKind::Interrupted), Do::Take(1), Do::Fail(ErrorKind::Interrupted)]));
    assert_eq!(again.write(&PICTURE[..4]).unwrap(), 4);
    again.flush().unwrap(); // no error was kept
    again.write_all(&PICTURE[4..]).unwrap();
    assert_eq!(again.finish().unwrap().0.got, PICTURE);
}

#[test]
fn a_sink_that_writes_short_gets_every_byte() {
    let mut writer = writer(Told { always: Some(Do::Take(1)), ..Told::default() });
    io::copy(&mut &PICTURE[..], &mut writer).unwrap();
    assert_eq!(writer.finish().unwrap().0.got, PICTURE);
}

#[test]
fn a_row_that_is_pending_is_not_lost_with_the_sink() {
    // The row is ready and the sink has one byte of it: the sink comes back only with the rest.
    let mut half = writer(Told::once([Do::Take(1), Do::Fail(ErrorKind::WouldBlock)]));
    assert_eq!(half.write(&PICTURE[..5]).unwrap(), 4);
    let (why, half) = half.into_inner().unwrap_err().into_parts();
    assert_eq!((why.kind(), half.get_ref().got.len()), (ErrorKind::WouldBlock, 1));
    assert_eq!(half.into_inner().unwrap().got, PICTURE[..4]);
    // A picture that is not whole gives its sink back, and is not finished.
    let mut part = writer(Told::default());
    part.write_all(&PICTURE[..6]).unwrap();
    let (why, part) = part.finish().unwrap_err().into_parts();
    assert_eq!((why.kind(), why.to_string()), (ErrorKind::UnexpectedEof, "the source ends 6 bytes early".into()));
    assert_eq!(part.into_inner().unwrap().got, PICTURE[..4]);
}

#[test]
fn a_sink_that_fails_at_every_second_call_loses_nothing() {
    for (source, layout, crop, target) in cases() {
        let picture = bytes(source.byte_len());
        let expected = whole(source, layout, crop, target, &picture);
        for length in 1..=picture.len() {
            let calls = (0..2 * expected.as_bytes().len()).map(|i| if i % 2 == 0 { Do::Take(3) } else { Do::Fail(ErrorKind::WouldBlock) });
            let mut writer = PreviewWriter::new(Preview::new(source, layout, crop, target).unwrap(), Told::once(calls));
            for mut piece in picture.chunks(length) {
                while !piece.is_empty() {
                    match writer.write(piece) {
                        Ok(taken) => piece = &piece[taken..],
                        Err(why) => assert_eq!(why.kind(), ErrorKind::WouldBlock),
                    }
                }
            }
            let (sink, has_alpha) = loop {
                match writer.finish() {
                    Ok(done) => break done,
                    Err(refused) => {
                        assert_eq!(refused.error().kind(), ErrorKind::WouldBlock);
                        writer = refused.into_inner();
                    }
                }
            };
            assert_eq!((has_alpha, &sink.got[..]), (expected.has_alpha(), expected.as_bytes()));
        }
    }
}

#[test]
fn a_writer_says_what_is_wrong() {
    let source = size(2, 2);
    let picture = bytes(17);
    let mut writer = PreviewWriter::new(Preview::new(source, PixelLayout::Rgba8, Rect::of(source), source).unwrap(), Vec::new());
    writer.write_all(&picture[..11]).unwrap();
    let (early, mut writer) = writer.finish().unwrap_err().into_parts();
    assert_eq!((early.kind(), early.to_string()), (ErrorKind::UnexpectedEof, "the source ends 5 bytes early".into()));
    assert_eq!(early.get_ref().and_then(|why| why.downcast_ref()), Some(&PreviewError::EndsEarly { missing: 5 }));
    assert_eq!(writer.preview().missing(), 5);
    let late = writer.write_all(&picture[11..]).unwrap_err();
    assert_eq!((late.kind(), late.to_string()), (ErrorKind::InvalidInput, "there are more bytes than the source has".into()));
    assert!(writer.is_done());
    let (sink, has_alpha) = writer.finish().unwrap();
    assert!(has_alpha);
    assert_eq!(sink, whole(source, PixelLayout::Rgba8, Rect::of(source), source, &picture[..16]).as_bytes());
}

/// A writer of a 1 by 3 picture as it is, and of its first and last rows alone.
fn group_writer(sinks: [Told; 3]) -> GroupWriter<Told> {
    let source = size(1, 3);
    let plans = [(0, 3), (0, 1), (2, 1)].map(|(y, height)| Plan::picture(source, PixelLayout::Rgba8, Rect::new(0, y, 1, height), size(1, height)));
    GroupWriter::new(GroupPreview::new(&plans).unwrap(), sinks.into())
}

/// What the sinks of such a writer get.
fn three_parts() -> [&'static [u8]; 3] {
    [&PICTURE, &PICTURE[..4], &PICTURE[8..]]
}

#[test]
fn each_job_has_a_sink_of_its_own() {
    for length in 1..=PICTURE.len() {
        let mut writer = group_writer(Default::default());
        for piece in PICTURE.chunks(length) {
            writer.write_all(piece).unwrap();
        }
        assert!(writer.is_done());
        let sinks = writer.finish().unwrap();
        for ((sink, has_alpha), part) in sinks.iter().zip(three_parts()) {
            assert_eq!((&sink.got[..], sink.flushed, *has_alpha), (part, true, false));
        }
    }
}

#[test]
fn a_sink_of_a_group_that_fails_or_writes_short_loses_nothing() {
    type Call = fn(GroupWriter<Told>) -> (io::Error, GroupWriter<Told>);
    let calls: [Call; 4] = [
        |mut writer| (writer.write(&PICTURE[4..]).unwrap_err(), writer),
        |mut writer| (writer.flush().unwrap_err(), writer),
        |writer| writer.finish().unwrap_err().into_parts(),
        |writer| writer.into_inner().unwrap_err().into_parts(),
    ];
    for call in calls {
        // The first row of the first two jobs is ready together, and the second's sink fails in it.
        let failing = Told::once([Do::Take(1), Do::Fail(ErrorKind::Interrupted), Do::Take(1), Do::Fail(ErrorKind::StorageFull)]);
        let mut first = group_writer([Told::once([Do::Take(3), Do::Take(1)]), failing, Told::default()]);
        assert_eq!(first.write(&PICTURE).unwrap(), 4);
        assert!(!first.is_done());
        let (why, mut writer) = call(first);
        assert_eq!(why.kind(), ErrorKind::StorageFull);
        assert_eq!((writer.get_ref()[0].got.len(), writer.get_ref()[1].got.len(), writer.preview().missing()), (4, 2, 8));
        // It is told once. What the sink had not got follows.
        writer.write_all(&PICTURE[4..]).unwrap();
        assert!(writer.is_done());
        let sinks = writer.finish().unwrap();
        assert!(sinks.iter().map(|(sink, _)| &sink.got[..]).eq(three_parts()));
    }
    let mut none = group_writer([Told::default(), Told::once([Do::Take(0)]), Told::default()]);
    assert_eq!(none.write(&PICTURE).unwrap(), 4);
    assert_eq!(none.flush().unwrap_err().kind(), ErrorKind::WriteZero);
}

#[test]
fn what_a_group_s_writer_says_of_its_input() {
    let mut writer = group_writer(Default::default());
    writer.write_all(&PICTURE[..7]).unwrap();
    let (early, mut writer) = writer.finish().unwrap_err().into_parts();
    assert_eq!((early.kind(), early.to_string()), (ErrorKind::UnexpectedEof, "the source ends 5 bytes early".into()));
    // The sinks alone, with the rows that were ready; and a write among them.
    writer.get_mut()[2].write_all(&[5]).unwrap();
    writer.write_all(&PICTURE[7..]).unwrap();
    assert_eq!(writer.write(&[0]).unwrap_err().kind(), ErrorKind::InvalidInput);
    let sinks = writer.into_inner().unwrap();
    assert_eq!(sinks[2].got, [&[5][..], &PICTURE[8..]].concat());
    assert_eq!(sinks[0].got, PICTURE);
}

#[test]
#[should_panic(expected = "there is one sink for each job")]
fn a_sink_for_each_job() {
    let source = size(1, 3);
    let plan = Plan::picture(source, PixelLayout::Rgba8, Rect::of(source), source);
    let _ = GroupWriter::new(GroupPreview::new(&[plan, plan]).unwrap(), vec![Told::default()]);
}
