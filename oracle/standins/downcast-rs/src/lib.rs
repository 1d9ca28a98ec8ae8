//! Stand-in for the `downcast_rs` crate: the trait and the macro as far as the published files need them.

use std::any::Any;

/// What a trait extends so that its objects can be turned back into their own type.
pub trait Downcast: Any {
    fn as_any(&self) -> &dyn Any;
    fn as_any_mut(&mut self) -> &mut dyn Any;
}

impl<T: Any> Downcast for T {
    fn as_any(&self) -> &dyn Any {
        self
    }

    fn as_any_mut(&mut self) -> &mut dyn Any {
        self
    }
}

/// Gives the objects of a trait `is`, `downcast_ref` and `downcast_mut`.
#[macro_export]
macro_rules! impl_downcast {
    ($name:ident) => {
        #[allow(dead_code)]
        impl dyn $name {
            pub fn is<T: $name>(&self) -> bool {
                $crate::Downcast::as_any(self).is::<T>()
            }

            pub fn downcast_ref<T: $name>(&self) -> Option<&T> {
                $crate::Downcast::as_any(self).downcast_ref::<T>()
            }

            pub fn downcast_mut<T: $name>(&mut self) -> Option<&mut T> {
                $crate::Downcast::as_any_mut(self).downcast_mut::<T>()
            }
        }
    };
}
