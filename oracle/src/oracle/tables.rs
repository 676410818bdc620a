//! The values of one call, as plain numbers.

/// A joint's kind, parent, moving number, origin rotation, origin translation and axis.
#[derive(Clone, Copy)]
pub struct Joint {
    pub kind: u8,
    pub parent: u64,
    pub number: u64,
    pub floats: [f64; 10],
}

/// A model: its id, link count, m, links (13 floats) and joints.
#[derive(Clone)]
pub struct Model {
    pub id: u64,
    pub count: u64,
    pub moving: u64,
    pub links: Vec<[f64; 13]>,
    pub joints: Vec<Joint>,
}

/// A pose entry: tag 1 is the pair (s, c), tag 2 the distance `first`.
#[derive(Clone, Copy)]
pub struct Pose {
    pub tag: u8,
    pub first: f64,
    pub second: f64,
}

/// A load: model id, link, torque and force.
#[derive(Clone, Copy)]
pub struct Load {
    pub id: u64,
    pub link: u64,
    pub wrench: [f64; 6],
}

/// One call with everything that it is given.
#[derive(Clone)]
pub struct Case {
    pub function: u8,
    pub mode: u8,
    pub model: Model,
    pub base: [f64; 19],
    pub posed: u64,
    pub poses: Vec<Pose>,
    pub speeds: Vec<f64>,
    pub accelerations: Vec<f64>,
    pub loads: Vec<Load>,
    pub output: Vec<f64>,
}

impl Case {
    /// A gravity call in fixed mode, everything at rest, the base and the pose identities.
    pub fn at_rest(id: u64, links: Vec<[f64; 13]>, joints: Vec<Joint>) -> Self {
        let mut base = [0.0; 19];
        base[0] = 1.0;
        let mut moving: Vec<&Joint> = joints.iter().filter(|j| j.kind != FIXED).collect();
        moving.sort_by_key(|joint| joint.number);
        let m = moving.len();
        let pose = |joint: &&Joint| Pose {
            tag: joint.kind,
            first: 0.0,
            second: if joint.kind == REVOLUTE { 1.0 } else { 0.0 },
        };
        let poses = moving.iter().map(pose).collect();
        let model = Model {
            id,
            count: links.len() as u64,
            moving: m as u64,
            links,
            joints,
        };
        Self {
            function: GRAVITY,
            mode: 0,
            model,
            base,
            posed: m as u64,
            poses,
            speeds: vec![0.0; m],
            accelerations: vec![0.0; m],
            loads: vec![],
            output: vec![0.0; m],
        }
    }
}

/// The function numbers of the records.
pub const INVERSE: u8 = 1;
pub const GRAVITY: u8 = 2;
pub const VELOCITY: u8 = 3;

/// The kinds of a joint.
pub const FIXED: u8 = 0;
pub const REVOLUTE: u8 = 1;
pub const PRISMATIC: u8 = 2;

/// The moving number of a fixed joint.
pub const NO_NUMBER: u64 = 65535;
