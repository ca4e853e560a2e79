//! What the reference answers, in the library's own structs: the refusal's number, and zeros beside it.
//!
//! The benchmark measures these functions as well, so they allocate nothing and are inlined into what calls them; but for those
//! of a replay, where it has plain Rust of its own.

use gishwarem::raw::{
    codes, Bodies, ChoiceAnswer, DecisionAnswer, EfsKeyAnswer, EntryAnswer, EnvelopeAnswer, Head,
    Identifier, IdentifierAnswer, ListAnswer, MergeAnswer, Part, ReachAnswer, ReplayAnswer,
    ReplayLine, ReplayState, Request, Root, SegmentAnswer, SizeAnswer, StartAnswer, StepAnswer,
    Tally, TraceAnswer, WrittenAnswer,
};
use gishwarem::SegmentHead;
use reference::choice::{self, Key, Which};
use reference::decision::{self, Rights, Row};
use reference::efskey::Sid;
use reference::entry::Algorithm;
use reference::list::Step;
use reference::reach::{self, Form, Reach};
use reference::replay::{self, Line};
use reference::time::{self, Gkid};
use reference::{descriptor, efskey, entry, envelope, list, segment, trace};

/// The answer to a refusal: its number, and zeros.
macro_rules! refused {
    ($answer:ident, $number:expr) => {
        $answer {
            refusal: $number,
            ..Default::default()
        }
    };
}

fn part(part: reference::Part) -> Part {
    Part {
        at: part.at,
        len: part.len,
    }
}

fn identifier(id: Gkid) -> Identifier {
    Identifier {
        l0: id.l0,
        l1: id.l1,
        l2: id.l2,
    }
}

fn gkid(id: Identifier) -> Gkid {
    Gkid {
        l0: id.l0,
        l1: id.l1,
        l2: id.l2,
    }
}

fn algorithm(algorithm: Algorithm) -> u32 {
    match algorithm {
        Algorithm::Rsa => codes::ALGORITHM_RSA,
        Algorithm::Aes256 => codes::ALGORITHM_AES256,
        Algorithm::Unsupported => codes::ALGORITHM_UNSUPPORTED,
    }
}

fn form_code(form: Form) -> u32 {
    match form {
        Form::Keyless => codes::FORM_KEYLESS,
        Form::L1Only => codes::FORM_L1ONLY,
        Form::L2Only => codes::FORM_L2ONLY,
        Form::Both => codes::FORM_BOTH,
        Form::Public => codes::FORM_PUBLIC,
    }
}

/// The form of a code; one that isn't listed is the weakest.
fn form(code: u32) -> Form {
    match code {
        codes::FORM_L1ONLY => Form::L1Only,
        codes::FORM_L2ONLY => Form::L2Only,
        codes::FORM_BOTH => Form::Both,
        codes::FORM_PUBLIC => Form::Public,
        _ => Form::Keyless,
    }
}

/// The rights of a code; one that isn't listed is the weakest.
fn rights(code: u32) -> Rights {
    match code {
        codes::RIGHTS_PUBLIC => Rights::Public,
        codes::RIGHTS_SEED => Rights::Seed,
        _ => Rights::None,
    }
}

/// Reads an entry.
#[inline]
pub fn entry_read(bytes: &[u8]) -> EntryAnswer {
    match entry::read(bytes) {
        Ok(entry) => EntryAnswer {
            refusal: 0,
            algorithm: algorithm(entry.algorithm),
            flags: entry.flags,
            reserved: 0,
            item: part(entry.item),
            fek: part(entry.fek),
        },
        Err(number) => refused!(EntryAnswer, number),
    }
}

/// What a writer answers.
#[inline]
pub fn written(written: Result<usize, u32>) -> WrittenAnswer {
    match written {
        Ok(len) => WrittenAnswer {
            refusal: 0,
            reserved: 0,
            len,
        },
        Err(number) => refused!(WrittenAnswer, number),
    }
}

/// Writes an entry.
#[inline]
pub fn entry_write(out: &mut [u8], flags: u32, item: &[u8], fek: &[u8]) -> WrittenAnswer {
    written(entry::write(out, flags, item, fek))
}

/// Judges a list. A refusal that is given for an entry tells the entry's index.
#[inline]
pub fn list_judge(bytes: &[u8]) -> ListAnswer {
    match list::judge(bytes) {
        Ok(count) => ListAnswer {
            refusal: 0,
            count,
            index: 0,
        },
        Err(refused) => ListAnswer {
            refusal: refused.number,
            count: 0,
            index: refused.index,
        },
    }
}

/// Takes one step of a list's walk. A refusal that is given for an entry tells the entry's index; the end and a refusal
/// keep the place.
#[inline]
pub fn list_step(bytes: &[u8], place: usize, number: u32) -> StepAnswer {
    match list::step(bytes, place, number) {
        Ok(Step::Entry {
            index,
            at,
            entry,
            next_at,
            next_index,
        }) => StepAnswer {
            refusal: 0,
            found: codes::STEP_ENTRY,
            index,
            algorithm: algorithm(entry.algorithm),
            flags: entry.flags,
            next_index,
            next_at,
            at,
            item: part(entry.item),
            fek: part(entry.fek),
        },
        Ok(Step::End) => StepAnswer {
            found: codes::STEP_END,
            next_index: number,
            next_at: place,
            ..Default::default()
        },
        Err(refused) => StepAnswer {
            refusal: refused.number,
            index: refused.index,
            next_index: number,
            next_at: place,
            ..Default::default()
        },
    }
}

/// The code of what stands in a SID's place, and where it stands.
fn sid(sid: Sid) -> (u32, Part) {
    match sid {
        Sid::Absent => (codes::SID_NONE, Part::default()),
        Sid::Given(area) => (codes::SID_GIVEN, part(area)),
        Sid::NoHint(area) => (codes::SID_NO_HINT, part(area)),
    }
}

/// Reads an EfsKey.
#[inline]
pub fn efskey_read(bytes: &[u8]) -> EfsKeyAnswer {
    match efskey::read(bytes) {
        Ok(key) => {
            let (kind, sid) = sid(key.sid);
            EfsKeyAnswer {
                refusal: 0,
                kind,
                sid,
                certificate: part(key.certificate),
            }
        }
        Err(number) => refused!(EfsKeyAnswer, number),
    }
}

/// Writes an EfsKey.
#[inline]
pub fn efskey_write(out: &mut [u8], sid: &[u8], certificate: &[u8]) -> WrittenAnswer {
    written(efskey::write(out, sid, certificate))
}

/// Reads a segment.
#[inline]
pub fn segment_read(bytes: &[u8]) -> SegmentAnswer {
    match segment::read(bytes) {
        Ok(segment) => SegmentAnswer {
            refusal: 0,
            length: segment.length,
            start_offset: segment.head.start_offset,
            bytes_in_stream: segment.head.bytes_in_stream,
            bytes_in_vdl: segment.head.bytes_in_vdl,
            unit_shift: segment.head.unit_shift,
            chunk_shift: segment.head.chunk_shift,
            cluster_shift: segment.head.cluster_shift,
            blocks: segment.blocks,
            larger: segment.larger,
            reserved: 0,
            sizes: part(segment.sizes),
        },
        Err(number) => refused!(SegmentAnswer, number),
    }
}

/// The size of a segment's block; zeros stand beside none.
#[inline]
pub fn segment_size(bytes: &[u8], index: usize) -> SizeAnswer {
    match segment::size(bytes, index) {
        Ok(Some(size)) => SizeAnswer {
            refusal: 0,
            found: 1,
            size,
        },
        Ok(None) => SizeAnswer::default(),
        Err(number) => refused!(SizeAnswer, number),
    }
}

/// Writes a segment from its head and its sizes.
#[inline]
pub fn segment_write(out: &mut [u8], head: &SegmentHead, sizes: &[u32]) -> WrittenAnswer {
    written(segment::write(out, &segment_head(head), sizes))
}

/// A segment's head as the reference has it.
#[inline]
pub fn segment_head(head: &SegmentHead) -> segment::Head {
    segment::Head {
        start_offset: head.start_offset,
        bytes_in_stream: head.bytes_in_stream,
        bytes_in_vdl: head.bytes_in_vdl,
        unit_shift: head.unit_shift,
        chunk_shift: head.chunk_shift,
        cluster_shift: head.cluster_shift,
    }
}

/// Reads an envelope; its form goes by the keys present.
#[inline]
pub fn envelope_read(bytes: &[u8]) -> EnvelopeAnswer {
    match envelope::read(bytes) {
        Ok(read) => EnvelopeAnswer {
            refusal: 0,
            form: form_code(Form::of(&read)),
            // "Bit 31 (LSB)" of dwFlags has the value 1: public.
            is_public: read.head.flags & 1,
            head: Head {
                version: read.head.version,
                flags: read.head.flags,
                at: identifier(read.head.at),
                root: Root {
                    bytes: read.head.root,
                },
                private_length: read.head.private_length,
                public_length: read.head.public_length,
            },
            bodies: Bodies {
                kdf: part(read.kdf),
                kdf_parameters: part(read.kdf_parameters),
                agreement: part(read.agreement),
                agreement_parameters: part(read.agreement_parameters),
                domain: part(read.domain),
                forest: part(read.forest),
                l1_key: part(read.l1_key),
                l2_key: part(read.l2_key),
            },
        },
        Err(number) => refused!(EnvelopeAnswer, number),
    }
}

/// Writes an envelope from its head and its bodies in their order.
#[inline]
pub fn envelope_write(out: &mut [u8], head: &Head, bodies: [&[u8]; 8]) -> WrittenAnswer {
    let head = envelope::Head {
        version: head.version,
        flags: head.flags,
        at: gkid(head.at),
        root: head.root.bytes,
        private_length: head.private_length,
        public_length: head.public_length,
    };
    let [kdf, kdf_parameters, agreement, agreement_parameters, domain, forest, l1_key, l2_key] =
        bodies;
    let bodies = envelope::Bodies {
        kdf,
        kdf_parameters,
        agreement,
        agreement_parameters,
        domain,
        forest,
        l1_key,
        l2_key,
    };
    written(envelope::write(out, &head, &bodies))
}

fn reached(reach: Result<Reach, u32>) -> ReachAnswer {
    match reach {
        Ok(reach) => ReachAnswer {
            refusal: 0,
            total: reach.total,
            rows: reach.rows,
        },
        Err(number) => refused!(ReachAnswer, number),
    }
}

/// The reach of an envelope.
#[inline]
pub fn envelope_reach(bytes: &[u8]) -> ReachAnswer {
    reached(reach::of_envelope(bytes))
}

/// The reach of a form.
#[inline]
pub fn form_reach(code: u32, at: Identifier) -> ReachAnswer {
    reached(reach::of_form(form(code), gkid(at)))
}

fn found(id: Gkid) -> IdentifierAnswer {
    IdentifierAnswer {
        refusal: 0,
        found: 1,
        at: identifier(id),
    }
}

/// The identifier of a reading.
#[inline]
pub fn time_identifier(reading: u64) -> IdentifierAnswer {
    found(time::at(reading))
}

/// The start of an identifier.
#[inline]
pub fn identifier_start(at: Identifier) -> StartAnswer {
    match time::start(gkid(at)) {
        Ok(time) => StartAnswer {
            refusal: 0,
            reserved: 0,
            time,
        },
        Err(number) => refused!(StartAnswer, number),
    }
}

/// The next older identifier; zeros stand beside none.
#[inline]
pub fn identifier_older(at: Identifier) -> IdentifierAnswer {
    match time::older(gkid(at)) {
        Ok(Some(id)) => found(id),
        Ok(None) => IdentifierAnswer::default(),
        Err(number) => refused!(IdentifierAnswer, number),
    }
}

/// Whether a descriptor is sound: the code of the part that fails first, or 0.
#[inline]
pub fn descriptor_check(descriptor: &[u8]) -> u32 {
    match descriptor::check(descriptor) {
        Ok(()) => codes::DESCRIPTOR_SOUND,
        Err(descriptor::Part::Head) => codes::DESCRIPTOR_HEAD,
        Err(descriptor::Part::Owner) => codes::DESCRIPTOR_OWNER,
        Err(descriptor::Part::Group) => codes::DESCRIPTOR_GROUP,
        Err(descriptor::Part::Sacl) => codes::DESCRIPTOR_SACL,
        Err(descriptor::Part::Dacl) => codes::DESCRIPTOR_DACL,
    }
}

/// The GetKey decision, by the descriptor.
#[inline]
pub fn decide(
    descriptor: &[u8],
    rights_code: u32,
    request: &Request,
    clock: u64,
    table: &[u8],
) -> DecisionAnswer {
    let (rights, asked) = (rights(rights_code), asked(request));
    decided(decision::decide(descriptor, rights, &asked, clock, table))
}

/// The GetKey decision, by a verdict; one that isn't listed is no.
#[inline]
pub fn decide_by_verdict(
    verdict: u32,
    rights_code: u32,
    request: &Request,
    clock: u64,
    table: &[u8],
) -> DecisionAnswer {
    let is_yes = verdict == codes::ACCESS_ALLOWED;
    let (rights, asked) = (rights(rights_code), asked(request));
    decided(decision::decide_by_verdict(
        is_yes, rights, &asked, clock, table,
    ))
}

/// The request as the reference takes it: every value but 0 gives a root.
#[inline]
fn asked(request: &Request) -> decision::Request {
    let given = request.root_given != codes::ROOT_NONE;
    decision::Request {
        root: given.then_some(request.root.bytes),
        l0: request.l0,
        l1: request.l1,
        l2: request.l2,
    }
}

/// What a decision answers.
#[inline]
pub fn decided(answer: Result<decision::Answer, u32>) -> DecisionAnswer {
    match answer {
        Ok(answer) => {
            let (granted, row) = match answer.row {
                Row::Place(row) => (codes::GRANTED_ROW, row),
                Row::Create => (codes::GRANTED_CREATE, 0),
            };
            DecisionAnswer {
                refusal: 0,
                granted,
                form: form_code(answer.form),
                at: identifier(answer.at),
                row,
            }
        }
        Err(number) => refused!(DecisionAnswer, number),
    }
}

fn rights_code(rights: Rights) -> u32 {
    match rights {
        Rights::None => codes::RIGHTS_NONE,
        Rights::Public => codes::RIGHTS_PUBLIC,
        Rights::Seed => codes::RIGHTS_SEED,
    }
}

/// Reads a record of a trace.
pub fn trace_read(bytes: &[u8]) -> TraceAnswer {
    recorded(trace::read(bytes))
}

/// What a record of a trace shows.
#[inline]
pub fn recorded(read: Result<trace::Record, u32>) -> TraceAnswer {
    match read {
        Ok(record) => TraceAnswer {
            refusal: 0,
            verdict: record.verdict.into(),
            rights: rights_code(record.rights),
            reserved: 0,
            clock: record.clock,
            request: Request {
                root_given: record.request.root.is_some().into(),
                l0: record.request.l0,
                l1: record.request.l1,
                l2: record.request.l2,
                root: Root {
                    bytes: record.request.root.unwrap_or_default(),
                },
            },
        },
        Err(number) => refused!(TraceAnswer, number),
    }
}

/// The tally as the reference has it: one with clocks says so by 1.
#[inline]
pub fn counted(tally: &Tally) -> replay::Tally {
    let given = tally.clocks == codes::CLOCKS_GIVEN;
    replay::Tally {
        accepted: tally.accepted,
        refused: tally.refused,
        earlier: tally.earlier,
        clocks: given.then_some((tally.first, tally.last)),
    }
}

/// The reference's tally; zeros stand for no clocks.
#[inline]
pub fn tally(tally: &replay::Tally) -> Tally {
    let (first, last) = tally.clocks.unwrap_or_default();
    Tally {
        accepted: tally.accepted,
        refused: tally.refused,
        earlier: tally.earlier,
        first,
        last,
        clocks: tally.clocks.is_some().into(),
        reserved: 0,
    }
}

/// The line of a record and the state behind it, unless a count would not fit.
fn replayed(state: &ReplayState, table: &[u8], record: &[u8]) -> Option<(Line, ReplayState)> {
    let next = state.next.checked_add(1)?;
    let one = replay::tally_of_one(table, record);
    let behind = replay::merge(&counted(&state.tally), &one)?;
    let line = Line {
        number: state.next,
        answer: replay::decide(table, record),
    };
    let tally = tally(&behind);
    Some((line, ReplayState { next, tally }))
}

/// The state as it is shown.
fn shown(state: &ReplayState) -> ReplayState {
    ReplayState {
        next: state.next,
        tally: tally(&counted(&state.tally)),
    }
}

/// Replays a record.
pub fn replay_step(state: &ReplayState, table: &[u8], record: &[u8]) -> ReplayLine {
    match replayed(state, table, record) {
        Some((line, state)) => ReplayLine {
            answer: decided(line.answer),
            number: line.number,
            state,
        },
        None => ReplayLine {
            state: shown(state),
            ..ReplayLine::default()
        },
    }
}

/// The room that a line needs.
const LINE: usize = 128;

/// Replays a chunk; that it ends is told by 1.
pub fn replay(
    out: &mut [u8],
    state: &ReplayState,
    table: &[u8],
    chunk: &[u8],
    ends: u32,
) -> ReplayAnswer {
    let whole = chunk.len() - chunk.len() % trace::LENGTH;
    let records = match ends {
        codes::CHUNK_ENDS => replay::records(chunk),
        _ => replay::records(&chunk[..whole]),
    };
    let mut answer = ReplayAnswer {
        stopped: codes::REPLAY_RECORDS,
        state: shown(state),
        ..ReplayAnswer::default()
    };
    for record in records {
        let rest = &mut out[answer.written..];
        if rest.len() < LINE {
            answer.stopped = codes::REPLAY_ROOM;
            break;
        }
        let Some((line, behind)) = replayed(&answer.state, table, record) else {
            answer.stopped = codes::REPLAY_FULL;
            break;
        };
        let line = format!("{line}\n");
        rest[..line.len()].copy_from_slice(line.as_bytes());
        answer.used += record.len();
        answer.written += line.len();
        answer.state = behind;
    }
    answer
}

/// Writes the line of a total.
pub fn replay_total(out: &mut [u8], tally: &Tally) -> WrittenAnswer {
    let line = format!("{}\n", counted(tally));
    written(match out.get_mut(..line.len()) {
        Some(room) => {
            room.copy_from_slice(line.as_bytes());
            Ok(line.len())
        }
        None => Err(13),
    })
}

/// Two tallies as one.
#[inline]
pub fn tally_merge(first: &Tally, second: &Tally) -> MergeAnswer {
    match replay::merge(&counted(first), &counted(second)) {
        Some(merged) => MergeAnswer {
            full: 0,
            reserved: 0,
            tally: tally(&merged),
        },
        None => MergeAnswer {
            full: 1,
            ..MergeAnswer::default()
        },
    }
}

/// The choice between two envelopes.
#[inline]
pub fn choose(root: &Root, wanted: Identifier, cached: &[u8], fetched: &[u8]) -> ChoiceAnswer {
    match choice::choose(&root.bytes, gkid(wanted), cached, fetched) {
        Ok(choice) => ChoiceAnswer {
            refusal: 0,
            which: match choice.which {
                Which::Cached => codes::CACHED,
                Which::Fetched => codes::FETCHED,
            },
            key: match choice.key {
                Key::L1 => codes::KEY_L1,
                Key::L2 => codes::KEY_L2,
            },
            reserved: 0,
            place: part(choice.part),
        },
        Err(number) => refused!(ChoiceAnswer, number),
    }
}
