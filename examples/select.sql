select id, name from people where age >= 18;
