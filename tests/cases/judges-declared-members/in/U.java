package u;
