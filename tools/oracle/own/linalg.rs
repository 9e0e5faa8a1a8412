//! Stands in for src/linalg.rs, which is not among the published files: only `Full` and `FdSketch` call it, and neither
//! is run here. The signatures are what feature.rs needs.
use crate::types::Real;

pub fn mahalanobis_sq_from_chol<R: Real>(_l: &[Vec<R>], _d: &[R]) -> R {
    unimplemented!()
}
pub fn cholesky_lower<R: Real>(_m: &[Vec<R>]) -> Option<Vec<Vec<R>>> {
    unimplemented!()
}
pub fn logdet_from_chol<R: Real>(_l: &[Vec<R>]) -> R {
    unimplemented!()
}
pub fn jacobi_eigen<R: Real>(_m: &[Vec<R>]) -> (Vec<R>, Vec<Vec<R>>) {
    unimplemented!()
}
