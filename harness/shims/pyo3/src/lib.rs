//! A stand-in for the few pyo3 names that the original files touch. Python
//! objects are small recorded values: a call is kept with its arguments, so that
//! what `utc_to_python_datetime` hands to `datetime.datetime` can be read back.
pub use pyo3_macros::{pyclass, pymethods};
use std::marker::PhantomData;
use std::sync::{Arc, Mutex};

#[derive(Debug)]
pub struct PyErr(pub String);
pub type PyResult<T> = Result<T, PyErr>;

#[derive(Clone, Copy)]
pub struct Python<'py>(PhantomData<&'py ()>);
impl<'py> Python<'py> {
    pub fn shim() -> Python<'static> {
        Python(PhantomData)
    }
    pub fn import(self, name: &str) -> PyResult<Bound<'py, PyAny>> {
        Ok(Bound::of(Obj::Path(name.to_string())))
    }
}

#[derive(Debug)]
pub enum Obj {
    None,
    Bool(bool),
    Int(i64),
    /// A patched `utc_to_python_datetime` may store the nanoseconds themselves.
    Nanos(i64),
    Path(String),
    List(Mutex<Vec<Arc<Obj>>>),
    Call(String, Vec<Arc<Obj>>),
}

pub struct PyAny;
pub struct Py<T: 'static>(Bound<'static, T>);
pub struct Bound<'py, T> {
    pub obj: Arc<Obj>,
    t: PhantomData<(&'py (), fn() -> T)>,
}

impl<T> Py<T> {
    pub fn of(o: Obj) -> Self {
        Py(Bound::of(o))
    }
    pub fn obj(&self) -> &Obj {
        &self.0.obj
    }
    pub fn clone_ref(&self, _: Python<'_>) -> Py<T> {
        Py(self.0.clone())
    }
    pub fn bind<'a, 'py>(&'a self, _: Python<'py>) -> &'a Bound<'py, T> {
        &self.0
    }
}
impl<'py, T> Clone for Bound<'py, T> {
    fn clone(&self) -> Self {
        Bound { obj: self.obj.clone(), t: PhantomData }
    }
}
impl<'py, T> Bound<'py, T> {
    pub fn of(o: Obj) -> Self {
        Bound { obj: Arc::new(o), t: PhantomData }
    }
    pub fn getattr(&self, name: &str) -> PyResult<Bound<'py, PyAny>> {
        match &*self.obj {
            Obj::Path(p) => Ok(Bound::of(Obj::Path(format!("{p}.{name}")))),
            Obj::Call(p, args) if p == "datetime.datetime" => {
                let k = ["year", "month", "day", "hour", "minute", "second", "microsecond"].iter().position(|x| *x == name);
                match k {
                    Some(k) => Ok(Bound { obj: args[k].clone(), t: PhantomData }),
                    None => Err(PyErr(name.into())),
                }
            }
            _ => Err(PyErr(format!("no attribute {name}"))),
        }
    }
    pub fn call1<A: Args>(&self, args: A) -> PyResult<Bound<'py, PyAny>> {
        match &*self.obj {
            Obj::Path(p) => Ok(Bound::of(Obj::Call(p.clone(), args.list()))),
            _ => Err(PyErr("not callable".into())),
        }
    }
    pub fn call_method0(&self, _: &str) -> PyResult<Bound<'py, PyAny>> {
        Ok(Bound::of(Obj::None))
    }
    pub fn is_none(&self) -> bool {
        matches!(&*self.obj, Obj::None)
    }
    pub fn extract<R: TryFrom<i64>>(&self) -> PyResult<R> {
        match &*self.obj {
            Obj::Int(i) => R::try_from(*i).map_err(|_| PyErr("range".into())),
            _ => Err(PyErr("not an int".into())),
        }
    }
    pub fn str(&self) -> PyResult<String> {
        Ok(format!("{:?}", self.obj))
    }
    pub fn append<A: ToObj>(&self, a: A) -> PyResult<()> {
        match &*self.obj {
            Obj::List(v) => {
                v.lock().unwrap().push(a.obj());
                Ok(())
            }
            _ => Err(PyErr("not a list".into())),
        }
    }
}
impl<'py, T> From<Bound<'py, T>> for Py<PyAny> {
    fn from(b: Bound<'py, T>) -> Self {
        Py(Bound { obj: b.obj, t: PhantomData })
    }
}

pub trait ToObj {
    fn obj(self) -> Arc<Obj>;
}
impl ToObj for i32 {
    fn obj(self) -> Arc<Obj> {
        Arc::new(Obj::Int(self as i64))
    }
}
impl ToObj for u32 {
    fn obj(self) -> Arc<Obj> {
        Arc::new(Obj::Int(self as i64))
    }
}
impl<'py, T> ToObj for Bound<'py, T> {
    fn obj(self) -> Arc<Obj> {
        self.obj
    }
}
impl<T> ToObj for Py<T> {
    fn obj(self) -> Arc<Obj> {
        self.0.obj
    }
}
pub trait Args {
    fn list(self) -> Vec<Arc<Obj>>;
}
impl<A: ToObj> Args for (A,) {
    fn list(self) -> Vec<Arc<Obj>> {
        vec![self.0.obj()]
    }
}
impl<A: ToObj, B: ToObj, C: ToObj, D: ToObj, E: ToObj, F: ToObj, G: ToObj, H: ToObj> Args for (A, B, C, D, E, F, G, H) {
    fn list(self) -> Vec<Arc<Obj>> {
        vec![self.0.obj(), self.1.obj(), self.2.obj(), self.3.obj(), self.4.obj(), self.5.obj(), self.6.obj(), self.7.obj()]
    }
}

pub mod types {
    use super::*;
    pub struct PyList;
    impl PyList {
        pub fn empty(_: Python<'_>) -> Bound<'_, PyList> {
            Bound::of(Obj::List(Mutex::new(Vec::new())))
        }
    }
    pub struct PyBool;
    impl PyBool {
        pub fn new(_: Python<'_>, b: bool) -> Bound<'_, PyBool> {
            Bound::of(Obj::Bool(b))
        }
    }
    pub struct PyModule;
    impl PyModule {
        pub fn import<'py>(py: Python<'py>, n: &str) -> PyResult<Bound<'py, PyAny>> {
            py.import(n)
        }
    }
    pub struct PyDateTime;
    pub struct PyIterator;
    impl PyIterator {
        pub fn from_object<'py>(_: &Bound<'py, PyAny>) -> PyResult<std::vec::IntoIter<PyResult<Bound<'py, PyAny>>>> {
            Err(PyErr("shim".into()))
        }
    }
}
pub mod exceptions {
    use super::PyErr;
    pub struct PyValueError;
    pub struct PyImportError;
    pub struct PyRuntimeError;
    impl PyValueError {
        pub fn new_err(s: impl Into<String>) -> PyErr {
            PyErr(s.into())
        }
    }
    impl PyImportError {
        pub fn new_err(s: impl Into<String>) -> PyErr {
            PyErr(s.into())
        }
    }
    impl PyRuntimeError {
        pub fn new_err(s: impl Into<String>) -> PyErr {
            PyErr(s.into())
        }
    }
}
pub mod prelude {
    pub use super::{pyclass, pymethods, Bound, Py, PyAny, PyErr, PyResult, Python};
}
