// Shares a module with the crate's multibody.rs: the way to its private fields.

impl Multibody {
    /// A mass matrix from outside takes the place of the assembled one, for rows and for accelerations.
    pub(crate) fn oracle_set_mass(&mut self, mass: DMatrix<Real>) {
        self.augmented_mass = mass.clone();
        self.acc_augmented_mass = mass.clone();
        self.inv_augmented_mass = LU::new(mass.clone());
        self.acc_inv_augmented_mass = LU::new(mass);
        self.oracle_set_driven_dofs();
    }

    /// The sequence that moves driven DoFs to the end, built as `update_mass_matrix` builds it.
    fn oracle_set_driven_dofs(&mut self) {
        self.augmented_mass_indices.clear();
        for link in self.links.iter() {
            for dof in link.assembly_id..link.assembly_id + link.joint.ndofs() {
                if link.joint.kinematic {
                    self.augmented_mass_indices.remove(dof);
                } else {
                    self.augmented_mass_indices.keep(dof);
                }
            }
        }
    }

    /// Gives the root document 01's shifts, which `forward_kinematics` never writes, then has the Jacobians worked out
    /// again.
    pub(crate) fn oracle_put_root_shifts(&mut self, shift02: Vector, shift23: Vector) {
        self.links[0].shift02 = shift02;
        self.links[0].shift23 = shift23;
        self.update_body_jacobians();
    }
}
