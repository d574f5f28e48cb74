//! What is taken of compile.rs and downmix.rs does what it is taken for.
use reference::engine::plan::{peek, PlanBuilder, Span, Step};
use reference::mix::chain::{Proc, ProcKind};
use reference::mix::compile::peek::insert;
use reference::mix::downmix::applies;
use reference::mix::format::Format::{self, *};

const FORMATS: [Format; 7] = [Mono, Stereo, Lcr, Surround51, Surround71, Surround514, Surround714];

/// An insert that sends at a gain of 0.1; its return, where it has one, is the third input from its second channel on.
fn insert_with(return_input: Option<usize>, bypass: bool) -> Proc {
    let kind = ProcKind::Insert { send_db: 0.1, return_db: 0.5, return_input, return_channel: 2, commit_samples: None };
    Proc { id: "i".to_string(), bypass, kind }
}

/// The builder after an insert on a span of the format's channels, that span and the insert's output.
fn inserted(p: &Proc, format: Format) -> (PlanBuilder, Span, Span) {
    let mut b = PlanBuilder::new(4);
    let src = b.buffers(format.channels());
    let (b, out) = insert(b, [15, 14, 13, 12, 11, 10], 0, 9, p, format, src);
    (b, src, out)
}

#[test]
fn an_insert_with_a_return() {
    for (format, bypass) in FORMATS.into_iter().flat_map(|f| [(f, false), (f, true)]) {
        let n = format.channels();
        let (b, src, out) = inserted(&insert_with(Some(3), bypass), format);
        assert_eq!(out, Span { start: 6 * n as u32, len: n as u32 });
        assert_eq!((peek::buffer_count(&b), peek::indices(&b).len(), peek::coefficients(&b).len()), (7 * n, 7 * n, n * n));
        let plan = b.finish();
        let (dry, wet) = if bypass { (1.0, 0.0) } else { (0.0, 1.0) };
        let values = |i: usize| (plan.nodes[i].id, plan.nodes[i].current().to_vec());
        let nodes = [(15, vec![0.1; n]), (14, vec![0.5; n]), (13, vec![dry; n]), (12, vec![wet; n]), (11, vec![1.0]), (10, vec![1.0])];
        assert_eq!((0..plan.nodes.len()).map(values).collect::<Vec<_>>(), nodes);
        let mut kinds = vec!["gain", "output"];
        kinds.extend(vec!["patch"; n]);
        kinds.extend(["gain", "gain", "gain", "clear", "send", "send"]);
        assert_eq!(plan.steps.iter().map(Step::kind).collect::<Vec<_>>(), kinds);
        assert!(matches!(plan.steps[1 + n], Step::Patch { input: 2, channel, .. } if channel as usize == n));
        assert!(matches!(plan.steps[1], Step::Output { src: from, slot: 9 } if from.start as usize == n && from.len as usize == n));
        assert!(matches!(plan.steps[3 + n], Step::Gain { node: 2, src: from, .. } if from == src));
        assert!(matches!(plan.steps[7 + n], Step::Send { node: 5, dst, .. } if dst == out));
    }
}

#[test]
fn an_insert_without_a_return() {
    for format in FORMATS {
        let (b, src, out) = inserted(&insert_with(None, false), format);
        assert_eq!((out, peek::buffer_count(&b)), (src, 2 * format.channels()));
        let plan = b.finish();
        assert_eq!(plan.steps.iter().map(Step::kind).collect::<Vec<_>>(), ["gain", "output"]);
        assert_eq!(plan.nodes.iter().map(|n| n.id).collect::<Vec<_>>(), [15]);
    }
}

#[test]
fn the_pairs_that_a_named_setting_maps() {
    let to = |src: Format| FORMATS.into_iter().filter(|dst| applies(src, *dst)).collect::<Vec<_>>();
    let pairs: [&[Format]; 7] = [
        &[],
        &[],
        &[Mono, Stereo],
        &[Mono, Stereo, Lcr, Surround71, Surround714],
        &[Mono, Stereo, Lcr, Surround51, Surround514],
        &[Mono, Stereo, Lcr, Surround51, Surround71, Surround714],
        &[Mono, Stereo, Lcr, Surround51, Surround71, Surround514],
    ];
    assert_eq!(FORMATS.map(to), pairs);
}
