pub use self::load::probe;
