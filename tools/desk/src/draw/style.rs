//! The look of the picture. Kinds of geometry differ by colour and by dashes, so that they do on a black and white print too.

/// The paper: A4 landscape at four units a millimetre.
pub const WIDTH: f64 = 1188.0;
pub const HEIGHT: f64 = 840.0;

/// Room beside a frame for the values of its upright axis, and how far below a panel's top its heading stands.
pub const AXIS: f64 = 62.0;
pub const HEADING: f64 = 14.0;

/// The radius of a want.
pub const WANT: f64 = 3.2;

/// Sizes of letters; `STYLE` has the same.
pub const LABEL: f64 = 11.0;
pub const SMALL: f64 = 10.0;

/// The classes of the reference line by kind: line, arc, spiral.
pub const KINDS: [&str; 3] = ["ref line", "ref arc", "ref spiral"];

/// The classes of paint, by the order of its kinds, what is added where it lies on other paint, and their look, which a picture
/// without paint does not have.
pub const PAINTS: [&str; 8] = ["paint p0", "paint p1", "paint p2", "paint p3", "paint p4", "paint p5", "paint p6", "paint p7"];
pub const OVER: [&str; 3] = ["", " over", " top"];
pub const PAINT_STYLE: &str = "\
.paint{stroke-width:3.4}\
.over{stroke-width:2.2}\
.top{stroke-width:1.1}\
.p0{stroke:#b8860b}\
.p1{stroke:#00838f}\
.p2{stroke:#d81b60}\
.p3{stroke:#558b2f}\
.p4{stroke:#6d4c41}\
.p5{stroke:#f4511e}\
.p6{stroke:#37474f}\
.p7{stroke:#8e24aa}";

/// The width of a dot, and its look, which only a picture with dots has.
pub const SPOT: f64 = 2.6;
pub const SPOT_STYLE: &str = ".spot{stroke:#111;stroke-width:2.6;stroke-linecap:round}";

pub const STYLE: &str = "\
@page{size:landscape;margin:8mm}\
text{font-family:sans-serif;font-size:11px;fill:#222}\
.title{font-size:19px;font-weight:bold}\
.subtitle{font-size:14px}\
.heading{font-size:13px;font-weight:bold}\
.small{font-size:10px}\
.quiet{font-size:10px;fill:#666}\
.halo{stroke:#fff;stroke-width:3px;stroke-linejoin:round;paint-order:stroke}\
.lane-id{fill:#45535f;font-weight:bold}\
.want-name{fill:#a3006d;font-weight:bold}\
.section-name{fill:#222;font-weight:bold}\
.at-name{fill:#6b2fa0;font-weight:bold}\
.bad{fill:#c00000}\
path,circle,rect{fill:none;stroke:none}\
.frame{stroke:#888}\
.grid{stroke:#e9e9e9}\
.axis{stroke:#666}\
.left-a{fill:#dceaf7;stroke:#7f93a5;stroke-width:.7}\
.left-b{fill:#c6dbef;stroke:#7f93a5;stroke-width:.7}\
.right-a{fill:#fdf0d8;stroke:#a5957f;stroke-width:.7}\
.right-b{fill:#f9e0b4;stroke:#a5957f;stroke-width:.7}\
.base{stroke:#555;stroke-width:1.1;stroke-dasharray:1.5 3}\
.ref{stroke-width:2.2}\
.line{stroke:#1f4e9c}\
.arc{stroke:#c8331f;stroke-dasharray:10 3}\
.spiral{stroke:#1b7a3d;stroke-dasharray:4 2}\
.dots{stroke-dasharray:none;stroke-linecap:round}\
.section{stroke:#222;stroke-width:1.5}\
.section-at{stroke:#222;stroke-width:.8;stroke-dasharray:5 3}\
.geometry{fill:#fff;stroke:#222;stroke-width:1}\
.mark{stroke:#222;stroke-width:1}\
.jump{stroke:#e00000;stroke-width:1.5}\
.at{stroke:#6b2fa0;stroke-width:1.4;stroke-dasharray:7 3 1.5 3}\
.want{fill:#fff;stroke:#a3006d;stroke-width:1.6}\
.lead{stroke:#a3006d;stroke-width:.7}\
.curve{stroke:#1f4e9c;stroke-width:1.8;stroke-linejoin:round}\
.step{stroke:#e00000;stroke-width:1;stroke-dasharray:2 2}\
.ground{fill:#efe9e1}\
.surface{stroke:#5b4632;stroke-width:2;stroke-linejoin:round}\
.face{stroke:#5b4632;stroke-width:1}\
.border{stroke:#9aa6b1;stroke-width:.7}\
.bar{fill:#fff;stroke:#222;stroke-width:1}\
.dark{fill:#222}";
