// Serves the files of a folder by net/http: serve ADDRESS FOLDER. bench/serve measures tlog serve beside it.
package main

import (
	"log"
	"net/http"
	"os"
)

func main() {
	log.Fatal(http.ListenAndServe(os.Args[1], http.FileServer(http.Dir(os.Args[2]))))
}
