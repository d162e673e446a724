package main

import (
	"fmt"

	"dsmdb/server/access"
	"github.com/spf13/cobra"
)

func tokenCommand() *cobra.Command {
	return &cobra.Command{
		Use: "token", Short: "draws a token for a client, and prints it and what a roles file has of it",
		Args: exactly(0, "nothing else"),
		RunE: func(*cobra.Command, []string) error {
			word, hash, err := access.NewToken()
			if err != nil {
				return err
			}
			_, err = fmt.Printf("token  %s\nsha256 %s\n", word, hash)
			return err
		},
	}
}
