pub mod reach { pub use crate::decode::reach::*; pub use crate::encode::reach::*; pub use crate::token::reach::*; pub use serde_json; }
